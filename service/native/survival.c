#define _GNU_SOURCE
#include "survival.h"
#include "worker.h"

#include <fcntl.h>
#include <stdio.h>
#include <stdlib.h>
#include <sys/stat.h>
#include <unistd.h>

/* The file of this worker, when it was touched last, and when that was seen. */
static char path[4096];
static struct timespec touched;
static double seen;

bool begin_survival(void) {
    const char *folder = getenv("PREFORK_FOLDER"), *name = getenv("PREFORK_WORKER");
    if (!folder || !name)
        return false;
    snprintf(path, sizeof path, "%s/survivors/%.40s.%d", folder, name, (int)getpid());
    int file = open(path, O_WRONLY | O_CREAT | O_TRUNC | O_CLOEXEC, 0600);
    if (file < 0)
        return false;
    close(file);
    seen = now();
    return true;
}

bool is_survival_over(double seconds) {
    struct stat found;
    if (stat(path, &found) < 0)
        return true;
    if (found.st_mtim.tv_sec != touched.tv_sec || found.st_mtim.tv_nsec != touched.tv_nsec) {
        touched = found.st_mtim;
        seen = now();
    }
    if (now() - seen <= seconds)
        return false;
    /* No service is there any more that would take the file away. */
    unlink(path);
    return true;
}

#define _GNU_SOURCE
#include "gate.h"
#include "shut.h"

#include <fcntl.h>
#include <limits.h>
#include <stddef.h>
#include <stdio.h>
#include <string.h>
#include <sys/stat.h>
#include <unistd.h>

#define LIBRARY "prefork-gate.so"

const char *gate_library(void) {
    static char path[PATH_MAX + sizeof LIBRARY];
    ssize_t length = readlink("/proc/self/exe", path, PATH_MAX - 1);
    char *end = length > 0 ? memrchr(path, '/', (size_t)length) : 0;
    if (!end)
        return 0;
    strcpy(end + 1, LIBRARY);
    /* (a list of libraries has these between its paths) */
    return strpbrk(path, " :") || access(path, R_OK) ? 0 : path;
}

bool shut_gate(const char *path, const struct addresses *addresses) {
    struct shut shut = {.count = 0};
    struct stat found;
    if (addresses->count > MOST_SHUT)
        return false;
    for (int at = 0; at < addresses->count; at++)
        if (!fstat(addresses->of[at].listener, &found))
            shut.inodes[shut.count++] = found.st_ino;
    int file = open(path, O_WRONLY | O_CREAT | O_EXCL | O_CLOEXEC, 0644);
    bool is_written = file >= 0 && write(file, &shut, sizeof shut) == (ssize_t)sizeof shut;
    if (file >= 0)
        close(file);
    return is_written;
}

bool open_gate(const char *path) {
    uint32_t is_open = 1;
    int file = open(path, O_WRONLY | O_CLOEXEC);
    bool is_written = file >= 0 && pwrite(file, &is_open, sizeof is_open, offsetof(struct shut, is_open)) == sizeof is_open;
    if (file >= 0)
        close(file);
    return is_written;
}

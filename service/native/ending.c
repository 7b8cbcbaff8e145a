#define _GNU_SOURCE
#include "ending.h"
#include "worker.h"

#include <dirent.h>
#include <errno.h>
#include <ftw.h>
#include <signal.h>
#include <stdio.h>
#include <stdlib.h>
#include <string.h>
#include <sys/prctl.h>
#include <sys/wait.h>
#include <unistd.h>

/* The pause between two looks at children that end, in microseconds. */
#define LOOK 2000
/* How long it is tried to end children that are not known, in seconds. */
#define BLIND_SECONDS 5

static int remove_entry(const char *path, const struct stat *found, int kind, struct FTW *place) {
    (void)found, (void)kind, (void)place;
    remove(path);
    return 0;
}

/* Kills the children that /proc shows; whether there is a /proc. */
static bool kill_children(void) {
    char path[300], line[512];
    int parent;
    struct dirent *entry;
    DIR *folder = opendir("/proc");
    while (folder && (entry = readdir(folder))) {
        pid_t process = (pid_t)atoi(entry->d_name);
        snprintf(path, sizeof path, "/proc/%s/stat", entry->d_name);
        FILE *file = process > 0 ? fopen(path, "re") : 0;
        const char *name_end = file && fgets(line, sizeof line, file) ? strrchr(line, ')') : 0;
        if (name_end && sscanf(name_end, ") %*c %d", &parent) == 1 && parent == getpid())
            kill(process, SIGKILL);
        if (file)
            fclose(file);
    }
    if (!folder)
        return false;
    closedir(folder);
    return access("/proc/self/stat", R_OK) == 0;
}

/* Kills a child and its group, as far as they are children of this process: their numbers are not those of others then. */
static void kill_known(pid_t child) {
    siginfo_t found;
    if (child > 0 && waitid(P_PGID, (id_t)child, &found, WEXITED | WNOHANG | WNOWAIT) == 0)
        kill(-child, SIGKILL);
    if (child > 0 && waitid(P_PID, (id_t)child, &found, WEXITED | WNOHANG | WNOWAIT) == 0)
        kill(child, SIGKILL);
}

/* Kills all that is left of the program. What a killed process has started becomes a child of this one. Without a /proc
 * only some are known, and others may stay. */
void kill_all(pid_t holder, pid_t program) {
    double begun = now();
    for (;;) {
        pid_t ended = waitpid(-1, 0, WNOHANG);
        if (ended < 0 && errno == ECHILD)
            return;
        if (ended > 0)
            continue;
        if (!kill_children()) {
            kill_known(holder);
            kill_known(program);
            if (now() - begun > BLIND_SECONDS)
                return;
        }
        usleep(LOOK);
    }
}

void adopt_orphans(void) {
    prctl(PR_SET_CHILD_SUBREAPER, 1);
}

void continue_without_parent(void) {
    prctl(PR_SET_PDEATHSIG, SIGCONT);
}

int has_ended_within(pid_t child, double seconds) {
    double begun = now();
    kill(child, SIGCONT);
    for (;;) {
        pid_t ended = waitpid(child, 0, WNOHANG);
        if (ended == child || (ended < 0 && errno == ECHILD))
            return 1;
        if (now() - begun > seconds)
            return 0;
        usleep(LOOK);
    }
}

void remove_room(const char *room) {
    if (*room)
        nftw(room, remove_entry, 8, FTW_DEPTH | FTW_PHYS);
}

/* The process that reads the standard error of a worker. It ends with the last process that can write there. */
#define _GNU_SOURCE
#include "log.h"

#include <errno.h>
#include <fcntl.h>
#include <signal.h>
#include <stdbool.h>
#include <stdio.h>
#include <stdlib.h>
#include <string.h>
#include <sys/file.h>
#include <sys/prctl.h>
#include <sys/wait.h>
#include <time.h>
#include <unistd.h>

/* How much of the end is kept, in a file that may have twice as much; and the longest piece of a line with one name. */
#define KEPT 4096
#define LONGEST 8192

/* The end of what was said, and the file that has it. */
static char kept[2 * KEPT];
static size_t length;
static int file = -1;

/* What comes before each line, and whether the time does. */
static char name[64];
static bool is_plain, is_timed;

static void write_all(int to, const char *text, size_t size) {
    while (size) {
        ssize_t done = write(to, text, size);
        if (done < 0 && errno == EINTR)
            continue;
        if (done <= 0)
            return;
        text += done;
        size -= (size_t)done;
    }
}

/* Keeps a text at the end of the file. Once that has twice as much as is kept, only the last half stays. */
static void keep(const char *text, size_t size) {
    if (size > KEPT) {
        text += size - KEPT;
        size = KEPT;
    }
    if (length + size > sizeof kept) {
        size_t stays = length < KEPT ? length : KEPT;
        memmove(kept, kept + length - stays, stays);
        length = stays;
        if (file >= 0 && (ftruncate(file, 0) < 0 || pwrite(file, kept, length, 0) < 0))
            file = -1;
    }
    memcpy(kept + length, text, size);
    if (file >= 0 && pwrite(file, text, size, (off_t)length) < 0)
        file = -1;
    length += size;
}

/* Passes a piece of a line on, in one piece, so that lines of workers do not mix. */
static void pass_line(const char *text, size_t size) {
    char line[LONGEST + 128];
    size_t at = 0;
    if (is_timed) {
        struct timespec now;
        struct tm parts;
        clock_gettime(CLOCK_REALTIME, &now);
        localtime_r(&now.tv_sec, &parts);
        at = strftime(line, 40, "%Y-%m-%dT%H:%M:%S", &parts);
        at += (size_t)snprintf(line + at, 8, ".%03ld ", now.tv_nsec / 1000000);
    }
    at += (size_t)snprintf(line + at, sizeof name + 4, "%s: ", name);
    memcpy(line + at, text, size);
    at += size;
    if (line[at - 1] != '\n')
        line[at++] = '\n';
    write_all(2, line, at);
}

/* Reads up to the end, and passes on line by line. */
static void read_lines(int from) {
    static char text[LONGEST];
    size_t had = 0;
    for (;;) {
        ssize_t got = read(from, text + had, sizeof text - had);
        if (got < 0 && errno == EINTR)
            continue;
        if (got <= 0)
            break;
        keep(text + had, (size_t)got);
        if (is_plain) {
            write_all(2, text, (size_t)got);
            continue;
        }
        had += (size_t)got;
        char *start = text, *end;
        while ((end = memchr(start, '\n', had))) {
            pass_line(start, (size_t)(end + 1 - start));
            had -= (size_t)(end + 1 - start);
            start = end + 1;
        }
        if (had == sizeof text) {
            pass_line(start, had);
            had = 0;
        }
        memmove(text, start, had);
    }
    if (had)
        pass_line(text, had);
}

/* Is the process that reads. Signals that end a service at a terminal do not end it: workers still say something. */
static void be_reader(int from, const char *folder) {
    char path[4200];
    setsid();
    prctl(PR_SET_NAME, "prefork-log");
    for (int number = 1; number < NSIG; number++)
        if (number != SIGCHLD)
            signal(number, SIG_IGN);
    snprintf(path, sizeof path, "%.4000s/errors/%s", folder, name);
    file = open(path, O_RDWR | O_CREAT | O_TRUNC | O_CLOEXEC, 0600);
    /* Who finds the lock taken knows that more may come. */
    if (file >= 0)
        flock(file, LOCK_EX | LOCK_NB);
    /* Nothing of the worker stays open: the master's pipes least of all. */
    dup2(from, 0);
    dup2(2, 1);
    int kept_file = file >= 0 ? fcntl(file, F_DUPFD_CLOEXEC, 10) : -1;
    if (kept_file >= 0)
        dup2(kept_file, 3);
    file = kept_file >= 0 ? 3 : -1;
    close_range(kept_file >= 0 ? 4 : 3, ~0U, 0);
    read_lines(0);
}

void begin_log(const char *folder, const char *worker) {
    const char *form = getenv("PREFORK_LOG");
    int ends[2];
    if (pipe2(ends, O_CLOEXEC) < 0)
        return;
    snprintf(name, sizeof name, "%s", worker);
    is_plain = form && !strcmp(form, "plain");
    is_timed = form && !strcmp(form, "timed");
    pid_t between = fork();
    if (between == 0) {
        /* The worker must not be a parent that it does not know of. */
        close(ends[1]);
        pid_t reader = fork();
        if (reader == 0)
            be_reader(ends[0], folder);
        _exit(reader < 0);
    }
    int status = 0;
    bool is_read = between > 0 && waitpid(between, &status, 0) == between && !status;
    if (is_read)
        dup2(ends[1], 2);
    close(ends[0]);
    close(ends[1]);
}

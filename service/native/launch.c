/* prefork-launch child | prefork-launch adopt | prefork-launch bound PARENT PROGRAM ARGUMENT.. | prefork-launch load NUMBER
 *
 * What a master starts as its workers, and as the new master of an upgrade. prefork-serve starts masters with it, and
 * preloaders that have settings.
 *
 * `child` becomes the worker of its generation. The folder PREFORK_FOLDER has a file for each generation, commands/I.C:
 * the words of the command, each ended by a byte 0. Words PREFORK_NAME=VALUE before them are for its environment. Workers
 * with settings have sections there (recipe.h): the folder, variables, limits and the command of a group. The first worker
 * of a generation takes commands/next for it. The generation is read from the master's first line, which stays in the pipe
 * for the worker. The worker starts in the folder to which the path PREFORK_PLACE, or that of its section, leads at that
 * moment: a symbolic link may lead elsewhere by then.
 *
 * `adopt` starts `PREFORK_PROGRAM adopt`, with this program for its workers, and passes on what that is told and answers
 * (relay.h). Both are killed when the old master ends: a master that reads the end of its input waits for its workers,
 * which serve on then.
 *
 * `bound` becomes PROGRAM, which is killed when PARENT, the process that starts it, ends.
 *
 * `load` becomes a preloader, by the section that can be read at the descriptor NUMBER. If it can't, it says `failed` and
 * why, as a preloader does.
 *
 * The standard error of a master is a pipe to prefork-serve, which reads there what the master asks. The messages of
 * workers do not belong into it: they go where those of the service go, each line after the name of its worker. The
 * keeper gives that descriptor. A worker that has failed to start waits for its next try: it is not started before. */
#define _GNU_SOURCE
#include "ask.h"
#include "log.h"
#include "reason.h"
#include "recipe.h"
#include "relay.h"
#include "version.h"

#include <errno.h>
#include <fcntl.h>
#include <poll.h>
#include <signal.h>
#include <stdarg.h>
#include <stdbool.h>
#include <stdio.h>
#include <stdlib.h>
#include <string.h>
#include <sys/prctl.h>
#include <sys/stat.h>
#include <unistd.h>

#define LONGEST_LINE 4096
/* How often the file of a worker is written: without it the worker does not count as running. */
#define MOST_TRIES 3

static void fail(const char *form, ...) __attribute__((format(printf, 1, 2), noreturn));

/* Whom the service knows this process as, once that is clear. */
static const char *known_as;
/* Whether it becomes a preloader, whose output is read. */
static bool is_preloader;

static void fail(const char *form, ...) {
    char text[1024];
    va_list values;
    va_start(values, form);
    vsnprintf(text, sizeof text, form, values);
    va_end(values);
    note_reason(known_as, text);
    /* Nobody may read what it says. */
    signal(SIGPIPE, SIG_IGN);
    dprintf(2, "prefork-launch: %s\n", text);
    if (is_preloader)
        dprintf(1, "failed %s\n", text);
    exit(1);
}

static const char *setting(const char *name) {
    const char *value = getenv(name);
    if (!value)
        fail("%s is not set: prefork-serve starts this program", name);
    return value;
}

/* Reads what is in the input and leaves it there. Ends if the master has gone. */
static size_t peek(char *text, size_t room) {
    int copy[2];
    struct pollfd input = {0, POLLIN, 0};
    if (pipe2(copy, O_CLOEXEC) < 0)
        fail("no pipe: %s", strerror(errno));
    while (poll(&input, 1, -1) < 0)
        if (errno != EINTR)
            fail("poll: %s", strerror(errno));
    ssize_t length = tee(0, copy[1], room, 0);
    if (length == 0)
        exit(0);
    if (length < 0 || read(copy[0], text, (size_t)length) != length)
        fail("the input is not the pipe of a master: %s", strerror(errno));
    close(copy[0]);
    close(copy[1]);
    return (size_t)length;
}

/* The generation of this worker, I.C, and its number, NR, of the line `worker I.C NR START`, which the master writes at
 * once. */
static unsigned read_generation(char *generation, size_t room) {
    char text[LONGEST_LINE + 1];
    unsigned image, configuration, number;
    text[peek(text, LONGEST_LINE)] = 0;
    if (!strchr(text, '\n') || sscanf(text, "worker %9u.%9u %9u ", &image, &configuration, &number) != 3)
        fail("the first line is not that of a master");
    snprintf(generation, room, "%u.%u", image, configuration);
    return number;
}

/* Notes the process of this worker in the folder `workers`, for the status. Without that folder nobody asks. */
static void note_process(const char *generation, unsigned number) {
    char path[4096];
    snprintf(path, sizeof path, "%s/workers/%s.%u", setting("PREFORK_FOLDER"), generation, number);
    for (int tries = 0; tries < MOST_TRIES; tries++) {
        int file = open(path, O_WRONLY | O_CREAT | O_TRUNC | O_CLOEXEC, 0600);
        bool is_written = file >= 0 && dprintf(file, "%d\n", (int)getpid()) > 0;
        if (file >= 0)
            close(file);
        if (is_written)
            return;
    }
}

/* Whether this worker waits: it has failed to start, and no start of it is allowed now. prefork-serve says so. */
static bool waits(unsigned number) {
    char path[4096];
    const char *folder = setting("PREFORK_FOLDER");
    snprintf(path, sizeof path, "%s/waiting/%u", folder, number);
    if (access(path, F_OK) < 0)
        return false;
    snprintf(path, sizeof path, "%s/waiting/%u.once", folder, number);
    return unlink(path) < 0;
}

/* What a file has, in memory that lasts; nothing if it can't be read. The system bounds what a command may have. */
static char *content_of(const char *path, size_t *length) {
    struct stat found;
    int file = open(path, O_RDONLY | O_CLOEXEC);
    char *text = file >= 0 && !fstat(file, &found) ? malloc((size_t)found.st_size + 1) : 0;
    ssize_t got = text ? read(file, text, (size_t)found.st_size + 1) : -1;
    if (file >= 0)
        close(file);
    *length = got > 0 ? (size_t)got : 0;
    return got > 0 ? text : 0;
}

/* The words of a file, each ended by a byte 0; nothing if it has none. */
static char **words_of(const char *path) {
    size_t length, count = 0;
    char *text = content_of(path, &length);
    if (!text || text[length - 1])
        return 0;
    for (size_t at = 0; at < length; at++)
        count += !text[at];
    char **words = calloc(count + 1, sizeof *words);
    if (!words)
        return 0;
    for (size_t word = 0; word < count; text += strlen(text) + 1)
        words[word++] = text;
    return words;
}

/* The words of a generation. */
static char **command_of(const char *generation) {
    static char path[4096], next[4096];
    const char *folder = setting("PREFORK_FOLDER");
    snprintf(path, sizeof path, "%s/commands/%s", folder, generation);
    snprintf(next, sizeof next, "%s/commands/next", folder);
    if (link(next, path) < 0 && errno != EEXIST)
        fail("%s: %s", next, strerror(errno));
    char **words = words_of(path);
    if (!words)
        fail("%s: no command", path);
    return words;
}

/* Puts the words before the command into the environment; the command. */
static char **set_variables(char **words) {
    while (*words && !strncmp(*words, "PREFORK_", 8) && strchr(*words, '='))
        putenv(*words++);
    return words;
}

/* Goes to a folder, or to that in which programs start, by its text. */
static void enter_place(const char *folder) {
    const char *place = folder ? folder : getenv("PREFORK_PLACE");
    if (!place || !*place)
        return;
    if (chdir(place) < 0)
        fail("%s: %s", place, strerror(errno));
    setenv("PWD", place, 1);
}

/* Becomes what a section says. */
static void become(char **section) __attribute__((noreturn));

static void become(char **section) {
    struct refusal refusal;
    char **command = apply_settings(section, &refusal);
    if (!command)
        fail("%s", refusal.text);
    if (!*command)
        fail("no command");
    execvp(command[0], command);
    fail("%s: %s", command[0], strerror(errno));
}

/* Takes the standard error of the service. Without a keeper it stays as it is: the worker cannot start then, and says
 * so. */
static void take_errors(void) {
    const char *path = getenv("PREFORK_KEEPER");
    char answer[64];
    int connection = path ? connect_keeper(path) : -1, errors = -1;
    if (connection < 0)
        return;
    if (ask_keeper(connection, "errors", answer, sizeof answer, &errors) > 0 && errors >= 0)
        dup2(errors, 2);
    if (errors >= 0)
        close(errors);
    close(connection);
}

/* Lets the system kill this process, and what it becomes, when its parent ends. */
static void end_with_parent(void) {
    prctl(PR_SET_PDEATHSIG, SIGKILL);
}

/* Becomes the new master of an upgrade, with the program of this path for its workers. */
static void become_master(const char *own) {
    const char *program = setting("PREFORK_PROGRAM");
    execlp(program, program, "adopt", "--program", own, (char *)0);
    fail("%s: %s", program, strerror(errno));
}

int main(int count, char **words) {
    char generation[32], own[4096];
    tell_version(count, words, "prefork-launch");
    if (count == 2 && !strcmp(words[1], "child")) {
        unsigned number = read_generation(generation, sizeof generation);
        char name[64];
        snprintf(name, sizeof name, "%s.%u", generation, number);
        setenv("PREFORK_WORKER", name, 1);
        if (waits(number))
            return 1;
        char **section = section_for(set_variables(command_of(generation)), number);
        note_process(generation, number);
        take_errors();
        if (!section)
            fail("commands/%s has no section for worker %u", generation, number);
        enter_place(folder_of(section));
        begin_log(setting("PREFORK_FOLDER"), name);
        become(section);
    }
    if (count == 3 && !strcmp(words[1], "load")) {
        is_preloader = true;
        snprintf(own, sizeof own, "/proc/self/fd/%s", words[2]);
        char **section = words_of(own);
        close(atoi(words[2]));
        if (!section)
            fail("%s: no section", own);
        enter_place(folder_of(section));
        become(section);
    }
    if (count == 2 && !strcmp(words[1], "adopt")) {
        known_as = "adopt";
        end_with_parent();
        take_errors();
        ssize_t length = readlink("/proc/self/exe", own, sizeof own - 1);
        own[length > 0 ? length : 0] = 0;
        relay(become_master, own);
    }
    if (count > 3 && !strcmp(words[1], "bound")) {
        end_with_parent();
        if (getppid() != atoi(words[2]))
            return 1;
        execvp(words[3], words + 3);
        dprintf(2, "prefork-launch: %s: %s\n", words[3], strerror(errno));
        return 1;
    }
    dprintf(2, "usage: prefork-launch child | prefork-launch adopt | prefork-launch bound PARENT PROGRAM ARGUMENT.. | "
               "prefork-launch load NUMBER\n");
    return 2;
}

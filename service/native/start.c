#define _GNU_SOURCE
#include "start.h"
#include "shut.h"

#include <errno.h>
#include <fcntl.h>
#include <signal.h>
#include <stdio.h>
#include <stdlib.h>
#include <string.h>
#include <sys/prctl.h>
#include <unistd.h>

extern char **environ;

static int gift_count(const struct gifts *gifts) {
    return gifts->addresses->count + (gifts->probe >= 0);
}

static int gift(const struct gifts *gifts, int at) {
    return at < gifts->addresses->count ? gifts->addresses->of[at].listener : gifts->probe;
}

int first_free(const struct gifts *gifts) {
    return FIRST_DESCRIPTOR + 2 * gift_count(gifts) + 64;
}

void keep_gifts(const struct gifts *gifts, int kept) {
    for (int number = FIRST_DESCRIPTOR; number < kept; number++) {
        bool is_gift = false;
        for (int at = 0; at < gift_count(gifts); at++)
            is_gift = is_gift || gift(gifts, at) == number;
        if (!is_gift)
            close(number);
    }
    close_range((unsigned)kept + 1, ~0U, 0);
}

void drop_gifts(const struct gifts *gifts) {
    for (int at = 0; at < gift_count(gifts); at++)
        close(gift(gifts, at));
}

static void append(char *text, size_t room, const char *more, size_t length) {
    size_t had = strlen(text);
    if (had + length >= room) {
        errno = E2BIG;
        dprintf(2, "prefork-activate: an argument is too long\n");
        _exit(127);
    }
    memcpy(text + had, more, length);
    text[had + length] = 0;
}

/* Appends what php-fpm knows a socket by: it has no brackets around an IPv6 host. */
static void append_for_fpm(char *text, size_t room, const char *address, int number) {
    const char *end = *address == '[' ? strchr(address, ']') : 0;
    char part[300];
    if (end)
        snprintf(part, sizeof part, "%.*s%s=%d", (int)(end - address - 1), address + 1, end + 1, number);
    else
        snprintf(part, sizeof part, "%s=%d", address, number);
    append(text, room, part, strlen(part));
}

/* The numbers of all addresses as a program wants them: {fds} or {fpm}. */
static void append_all(const struct gifts *gifts, char *text, size_t room, bool is_fpm) {
    char part[16];
    for (int at = 0; at < gifts->addresses->count; at++) {
        if (is_fpm) {
            append(text, room, ",", at ? 1 : 0);
            append_for_fpm(text, room, gifts->addresses->of[at].text, FIRST_DESCRIPTOR + at);
        } else {
            snprintf(part, sizeof part, "%d;", FIRST_DESCRIPTOR + at);
            append(text, room, part, strlen(part));
        }
    }
}

/* Appends the value of the name between braces; whether there is such a name. */
static bool append_value(const struct gifts *gifts, const char *name, char *text, size_t room) {
    int at = 0, length = 0;
    char number[16];
    if (!strcmp(name, "fds") || !strcmp(name, "fpm")) {
        append_all(gifts, text, room, name[1] == 'p');
        return true;
    }
    if (!strcmp(name, "room") || !strcmp(name, "probe")) {
        const char *value = name[0] == 'r' ? gifts->room : gifts->probe_place ? gifts->probe_place : "";
        append(text, room, value, strlen(value));
        return true;
    }
    if (sscanf(name, "fd%d%n", &at, &length) == 1 ? !name[length] && at >= 0 : !strcmp(name, "fd")) {
        snprintf(number, sizeof number, "%d", FIRST_DESCRIPTOR + at);
        append(text, room, number, strlen(number));
        return true;
    }
    bool is_address = sscanf(name, "address%d%n", &at, &length) == 1 ? !name[length] : !strcmp(name, "address");
    if (is_address && at >= 0 && at < gifts->addresses->count)
        append(text, room, gifts->addresses->of[at].text, strlen(gifts->addresses->of[at].text));
    return is_address;
}

/* A text with its names filled in. */
static char *filled(const struct gifts *gifts, const char *pattern) {
    size_t room = strlen(pattern) + 16384;
    char *text = calloc(1, room), name[16];
    while (text && *pattern) {
        const char *end = *pattern == '{' ? strchr(pattern, '}') : 0;
        size_t length = end ? (size_t)(end - pattern - 1) : 0;
        if (end && length < sizeof name) {
            memcpy(name, pattern + 1, length);
            name[length] = 0;
            if (append_value(gifts, name, text, room)) {
                pattern = end + 1;
                continue;
            }
        }
        append(text, room, pattern++, 1);
    }
    return text;
}

/* Removes what is between the master and the worker from the environment. */
static void clear_environment(void) {
    static const char *const prefixes[] = {"PREFORK_", "LISTEN_", "NOTIFY_SOCKET=", "WATCHDOG_"};
    char **to = environ;
    for (char **from = environ; *from; from++) {
        bool is_ours = false;
        for (size_t at = 0; at < sizeof prefixes / sizeof *prefixes; at++)
            is_ours = is_ours || !strncmp(*from, prefixes[at], strlen(prefixes[at]));
        if (!is_ours)
            *to++ = *from;
    }
    *to = 0;
}

/* Lets the program load a library, beside those that it has; not if --env says which it has. */
static void set_gate(const struct gifts *gifts) {
    const char *had = getenv("LD_PRELOAD");
    char libraries[8192];
    for (int at = 0; at < gifts->options->setting_count; at++)
        if (!strncmp(gifts->options->settings[at], "LD_PRELOAD=", 11))
            return;
    int length = snprintf(libraries, sizeof libraries, "%s%s%s", had ? had : "", had && *had ? ":" : "", gifts->library);
    if (length >= (int)sizeof libraries)
        return;
    setenv("LD_PRELOAD", libraries, 1);
    setenv(SHUT_NAME, gifts->gate, 1);
}

static void set_environment(const struct gifts *gifts) {
    char number[16], names[16 * (MOST_LISTENERS + 1)] = "", name[16];
    clear_environment();
    for (int at = 0; at < gifts->options->setting_count; at++)
        putenv(filled(gifts, gifts->options->settings[at]));
    if (gifts->notify)
        setenv("NOTIFY_SOCKET", gifts->notify, 1);
    if (gifts->gate)
        set_gate(gifts);
    if (gifts->options->no_listen_fds)
        return;
    for (int at = 0; at < gift_count(gifts); at++) {
        snprintf(name, sizeof name, at < gifts->addresses->count ? "%slistener%d" : "%sprobe", at ? ":" : "", at);
        append(names, sizeof names, name, strlen(name));
    }
    snprintf(number, sizeof number, "%d", gift_count(gifts));
    setenv("LISTEN_FDS", number, 1);
    setenv("LISTEN_FDNAMES", names, 1);
    snprintf(number, sizeof number, "%d", (int)getpid());
    setenv("LISTEN_PID", number, 1);
}

/* Gives the sockets the numbers that the program expects. */
static bool place_gifts(const struct gifts *gifts) {
    int held[MOST_LISTENERS + 1];
    for (int at = 0; at < gift_count(gifts); at++) {
        held[at] = fcntl(gift(gifts, at), F_DUPFD_CLOEXEC, first_free(gifts));
        if (held[at] < 0)
            return false;
    }
    for (int at = 0; at < gift_count(gifts); at++)
        if (dup2(held[at], FIRST_DESCRIPTOR + at) < 0)
            return false;
    close_range((unsigned)(FIRST_DESCRIPTOR + gift_count(gifts)), ~0U, CLOSE_RANGE_CLOEXEC);
    return true;
}

/* Becomes the program, in the child. */
static void become(const struct gifts *gifts, int told, pid_t holder) {
    sigset_t none;
    told = fcntl(told, F_DUPFD_CLOEXEC, first_free(gifts));
    setsid();
    prctl(PR_SET_PDEATHSIG, SIGKILL);
    set_environment(gifts);
    char **words = gifts->options->command;
    for (int at = 0; words[at]; at++)
        words[at] = filled(gifts, words[at]);
    if (getppid() == holder && place_gifts(gifts)) {
        sigemptyset(&none);
        sigprocmask(SIG_SETMASK, &none, 0);
        signal(SIGPIPE, SIG_DFL);
        execvp(words[0], words);
    }
    int fault = errno;
    if (write(told, &fault, sizeof fault) < 0)
        _exit(126);
    _exit(127);
}

pid_t start_program(const struct gifts *gifts, int *fault) {
    int told[2];
    pid_t holder = getpid();
    if (pipe2(told, O_CLOEXEC) < 0)
        return -1;
    pid_t program = fork();
    if (!program)
        become(gifts, told[1], holder);
    close(told[1]);
    if (program > 0 && read(told[0], fault, sizeof *fault) != sizeof *fault)
        *fault = 0;
    close(told[0]);
    return program;
}

/* prefork-shim SOCKET
 *
 * What a master starts as a worker of a generation that has a preloader: a process that has loaded the application, and
 * forks each worker. To its master this program is the worker: it hands its descriptors 0, 1 and 2 to the preloader at the
 * socket SOCKET, and ends when the worker ends, with its status.
 *
 * The worker ends with it, too. It is given the end of a pipe of which this process alone has the other one, and asks the
 * system to be killed when that is closed. Signals are passed on.
 *
 * See docs/workers/preloaders.md for what is said at the socket. */
#define _GNU_SOURCE
#include "ask.h"
#include "reason.h"
#include "version.h"

#include <errno.h>
#include <fcntl.h>
#include <poll.h>
#include <signal.h>
#include <stdarg.h>
#include <stdbool.h>
#include <stdio.h>
#include <stdlib.h>
#include <string.h>
#include <sys/prctl.h>
#include <sys/signalfd.h>
#include <sys/socket.h>
#include <sys/syscall.h>
#include <unistd.h>

#define LONGEST_LINE 4096
/* What is handed over: input, output, errors, and the end of the pipe. */
#define HANDED 4

static void fail(const char *form, ...) __attribute__((format(printf, 1, 2), noreturn));

static void fail(const char *form, ...) {
    char text[1024];
    va_list values;
    va_start(values, form);
    vsnprintf(text, sizeof text, form, values);
    va_end(values);
    dprintf(2, "prefork-shim: %s\n", text);
    note_reason(0, text);
    exit(1);
}

/* The name of the worker, such as 1.2.0. */
static const char *name_of(void) {
    const char *name = getenv("PREFORK_WORKER");
    return name ? name : "worker";
}

/* What `ps -o comm` shows. */
static void show_name(void) {
    char title[16];
    snprintf(title, sizeof title, "shim %.7s", name_of());
    prctl(PR_SET_NAME, title, 0, 0, 0);
}

/* A descriptor at which the signals come that are passed on. */
static int open_signals(void) {
    static const int passed[] = {SIGTERM, SIGINT, SIGHUP, SIGQUIT, SIGUSR1, SIGUSR2, SIGCONT};
    sigset_t set;
    sigemptyset(&set);
    for (size_t at = 0; at < sizeof passed / sizeof *passed; at++)
        sigaddset(&set, passed[at]);
    sigprocmask(SIG_BLOCK, &set, 0);
    return signalfd(-1, &set, SFD_CLOEXEC);
}

/* Whether the master has told the worker to quit while it waits for the preloader: its lines stay in the pipe for the
 * worker. */
static bool is_told_to_quit(void) {
    char text[LONGEST_LINE + 1];
    int copy[2];
    if (pipe2(copy, O_CLOEXEC) < 0)
        return false;
    ssize_t length = tee(0, copy[1], LONGEST_LINE, SPLICE_F_NONBLOCK);
    if (length > 0 && read(copy[0], text, (size_t)length) != length)
        length = 0;
    close(copy[0]);
    close(copy[1]);
    return length >= 6 && !memcmp(text + length - 6, "\nquit\n", 6);
}

/* Ends as a worker does that was told to quit, if it was. */
static void leave_if_told(void) {
    if (is_told_to_quit())
        exit(write(1, "gone\n", 5) == 5 ? 0 : 1);
}

/* Waits until the preloader takes descriptors. A preloader that loads takes its time; a master that has gone, or no longer
 * wants the worker, is not kept waiting. */
static void await_preloader(int preloader, int signals) {
    for (;;) {
        struct pollfd watched[] = {{preloader, POLLIN, 0}, {signals, POLLIN, 0}, {0, 0, 0}};
        if (poll(watched, 3, 100) < 0 && errno != EINTR)
            fail("poll: %s", strerror(errno));
        if (watched[1].revents)
            exit(0);
        if (watched[0].revents)
            return;
        if (watched[2].revents & (POLLHUP | POLLERR))
            exit(0);
        leave_if_told();
    }
}

/* What the preloader or the worker says; the empty text if it has gone. */
static const char *hear(int preloader) {
    static char text[LONGEST_LINE];
    ssize_t length = recv(preloader, text, sizeof text - 1, 0);
    text[length > 0 ? length : 0] = 0;
    return text;
}

static void hand_over(int preloader, int lifeline) {
    char text[200];
    const char *keeper = getenv("PREFORK_KEEPER");
    union {
        struct cmsghdr header;
        char bytes[CMSG_SPACE(HANDED * sizeof(int))];
    } control;
    int numbers[HANDED] = {0, 1, 2, lifeline};
    int length = snprintf(text, sizeof text, "fork %.40s %.110s", name_of(), keeper ? keeper : "");
    struct iovec piece = {text, (size_t)length};
    struct msghdr message = {
        .msg_iov = &piece, .msg_iovlen = 1, .msg_control = &control, .msg_controllen = sizeof control};
    struct cmsghdr *header = CMSG_FIRSTHDR(&message);
    header->cmsg_level = SOL_SOCKET;
    header->cmsg_type = SCM_RIGHTS;
    header->cmsg_len = CMSG_LEN(sizeof numbers);
    memcpy(CMSG_DATA(header), numbers, sizeof numbers);
    if (sendmsg(preloader, &message, MSG_NOSIGNAL) < 0)
        fail("the preloader has gone");
    /* The pipes are the worker's alone. */
    close(0);
    close(1);
    close(lifeline);
}

/* Notes the process of the worker beside this one in the folder `workers`, for the status. */
static void note_worker(int number) {
    char path[4096];
    const char *folder = getenv("PREFORK_FOLDER");
    snprintf(path, sizeof path, "%s/workers/%s", folder ? folder : "", name_of());
    int file = folder ? open(path, O_WRONLY | O_APPEND | O_CLOEXEC) : -1;
    if (file >= 0) {
        dprintf(file, "%d\n", number);
        close(file);
    }
}

/* The process of the worker, which has told its number and holds the other end of this connection: while that is open the
 * number is its own. */
static int open_worker(int preloader) {
    const char *text = hear(preloader);
    int number;
    if (!*text)
        fail("the preloader has gone, or its worker before it began");
    if (!strncmp(text, "no ", 3))
        fail("%s", text + 3);
    if (sscanf(text, "pid %d", &number) != 1)
        fail("the preloader says: %.100s", text);
    int worker = (int)syscall(SYS_pidfd_open, number, 0);
    struct pollfd watched = {preloader, 0, 0};
    if (worker < 0 || (poll(&watched, 1, 0) == 1 && watched.revents & POLLHUP))
        fail("the worker has ended before it began");
    note_worker(number);
    return worker;
}

/* Passes signals on until the worker has ended; its status. */
static int await_end(int preloader, int worker, int signals) {
    int status = 1;
    for (;;) {
        struct pollfd watched[] = {{worker, POLLIN, 0}, {signals, POLLIN, 0}, {preloader, POLLIN, 0}};
        if (poll(watched, 3, -1) < 0 && errno != EINTR)
            fail("poll: %s", strerror(errno));
        if (watched[1].revents) {
            struct signalfd_siginfo taken;
            if (read(signals, &taken, sizeof taken) == sizeof taken)
                syscall(SYS_pidfd_send_signal, worker, (int)taken.ssi_signo, 0, 0);
        }
        if (watched[2].revents && sscanf(hear(preloader), "ended %d", &status) != 1 && watched[2].revents & POLLHUP)
            preloader = -1;
        if (watched[0].revents) {
            if (preloader >= 0 && recv(preloader, 0, 0, MSG_PEEK | MSG_DONTWAIT) >= 0)
                sscanf(hear(preloader), "ended %d", &status);
            return status;
        }
    }
}

int main(int count, char **words) {
    int lifeline[2];
    tell_version(count, words, "prefork-shim");
    if (count != 2) {
        dprintf(2, "usage: prefork-shim SOCKET\n");
        return 2;
    }
    show_name();
    int signals = open_signals(), preloader = connect_keeper(words[1]);
    if (preloader < 0)
        fail("%s: no preloader: %s", words[1], strerror(errno));
    if (signals < 0 || pipe2(lifeline, O_CLOEXEC) < 0)
        fail("no pipe: %s", strerror(errno));
    await_preloader(preloader, signals);
    const char *said = hear(preloader);
    if (strcmp(said, "give")) {
        leave_if_told();
        fail("%s", !strncmp(said, "no ", 3) ? said + 3 : "the preloader has ended before it had loaded");
    }
    hand_over(preloader, lifeline[0]);
    return await_end(preloader, open_worker(preloader), signals);
}

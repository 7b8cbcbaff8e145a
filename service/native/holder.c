/* The process between a worker and its program. It is the parent of the program, and of whatever the program leaves. */
#define _GNU_SOURCE
#include "program.h"
#include "ending.h"
#include "start.h"

#include <errno.h>
#include <fcntl.h>
#include <poll.h>
#include <signal.h>
#include <stdio.h>
#include <stdlib.h>
#include <string.h>
#include <sys/prctl.h>
#include <sys/signalfd.h>
#include <sys/socket.h>
#include <sys/wait.h>
#include <unistd.h>

static void tell(int line, enum news news, int value) {
    struct message message = {news, value};
    send(line, &message, sizeof message, MSG_NOSIGNAL);
}

/* Takes the processes that have ended; whether the program itself is among them. */
static bool has_ended(pid_t program, int *status) {
    bool is_program = false;
    int found;
    pid_t ended;
    while ((ended = waitpid(-1, &found, WNOHANG)) > 0)
        if (ended == program) {
            *status = WIFEXITED(found) ? WEXITSTATUS(found) : 128 + WTERMSIG(found);
            is_program = true;
        }
    return is_program;
}

/* Passes signals on until the worker closes its end. */
static void pass_on(int line, int ends, pid_t program) {
    bool is_running = true;
    int status = 0;
    for (;;) {
        struct pollfd watched[] = {{line, POLLIN, 0}, {ends, POLLIN, 0}};
        if (poll(watched, 2, -1) < 0 && errno != EINTR)
            return;
        if (watched[1].revents) {
            struct signalfd_siginfo taken;
            if (read(ends, &taken, sizeof taken) < 0 && errno != EAGAIN)
                return;
            if (has_ended(program, &status)) {
                is_running = false;
                tell(line, NEWS_ENDED, status);
            }
        }
        if (watched[0].revents) {
            unsigned char number;
            if (recv(line, &number, 1, 0) <= 0)
                return;
            if (is_running)
                kill(program, number);
        }
    }
}

static void hold(const struct gifts *gifts, int line) {
    sigset_t child;
    sigemptyset(&child);
    sigaddset(&child, SIGCHLD);
    sigprocmask(SIG_BLOCK, &child, 0);
    adopt_orphans();
    prctl(PR_SET_NAME, "prefork-hold");
    int ends = signalfd(-1, &child, SFD_CLOEXEC), fault = 0;
    pid_t program = start_program(gifts, &fault);
    drop_gifts(gifts);
    if (program > 0 && !fault) {
        tell(line, NEWS_STARTED, (int)program);
        pass_on(line, ends, program);
    } else {
        tell(line, NEWS_REFUSED, fault ? fault : errno);
    }
    kill_all(0, program);
    remove_room(gifts->room);
}

pid_t start_holder(const struct gifts *gifts, int *line) {
    int ends[2];
    if (socketpair(AF_UNIX, SOCK_SEQPACKET | SOCK_CLOEXEC, 0, ends) < 0)
        return -1;
    pid_t holder = fork();
    if (holder) {
        close(ends[1]);
        *line = ends[0];
        return holder;
    }
    /* Nothing of the worker stays open but what the program gets: the master's pipes least of all. */
    continue_without_parent();
    int kept = fcntl(ends[1], F_DUPFD_CLOEXEC, first_free(gifts));
    close(ends[0]);
    keep_gifts(gifts, kept);
    hold(gifts, kept);
    _exit(0);
}

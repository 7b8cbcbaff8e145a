/* A first master carries out all words, and the new master of an upgrade makes the calls that it passes on. A new master
 * that starts the next one, and has left, would do nothing any more but pass on lines. So a relay is between the first
 * master and the one in charge: it starts each new master, passes lines on, and ends a master that has left.
 *
 * What the first master starts becomes the relay, and the parent of the new master. What a later one starts asks the relay
 * at PREFORK_FOLDER/masters.sock, gives it its own input, output and standard error, and is the deputy of the next master,
 * which the relay starts with these: if either ends, so does the other one. Once the master in charge has answered `ok` to
 * `mI leave`, the relay takes its place at the pipes of the next one, and kills it. If that can't be, the old master stays
 * and passes lines on, as masters do.
 *
 * A relay is often older than the program of its file, which a deputy runs: so a deputy says its path, and where the two do
 * not understand each other it becomes a relay itself.
 *
 * All masters that it has started are killed when the relay ends, and it is killed when the first master ends. */
#define _GNU_SOURCE
#include "relay.h"

#include <errno.h>
#include <fcntl.h>
#include <poll.h>
#include <signal.h>
#include <stdbool.h>
#include <stdio.h>
#include <stdlib.h>
#include <string.h>
#include <sys/prctl.h>
#include <sys/signalfd.h>
#include <sys/socket.h>
#include <sys/un.h>
#include <sys/wait.h>
#include <unistd.h>

#define ROOM 65536
#define LONGEST_LINE 128
#define LONGEST_PATH 4096
/* The descriptors that a deputy gives: input, output and standard error. */
#define GIVEN 3
/* How long one of them may take to give them. */
#define ASK_MILLISECONDS 1000
enum { DOWN, UP, LISTENER, CHILDREN, DEPUTY, PLACES };

typedef void (*Become)(const char *own);

/* Bytes on their way from one descriptor to another, and what is known of the line that is read. */
struct way {
    int from, to;
    size_t begin, end, length;
    char text[ROOM], line[LONGEST_LINE];
};

/* A master, and how its pipes are opened again without holding them open. */
struct next {
    pid_t process;
    int deputy, input, output;
};

static struct relay {
    struct way down, up;
    pid_t master;
    struct next next;
    int listener, children;
    /* The numbers of the master's image and of the next one, and whether the answer to its leave is due. */
    unsigned image, next_image;
    bool leaves;
    sigset_t before;
} all;

static void drop(int *descriptor) {
    if (*descriptor >= 0)
        close(*descriptor);
    *descriptor = -1;
}

static bool place_of(struct sockaddr_un *place) {
    const char *folder = getenv("PREFORK_FOLDER");
    *place = (struct sockaddr_un){.sun_family = AF_UNIX};
    int length = folder ? snprintf(place->sun_path, sizeof place->sun_path, "%s/masters.sock", folder) : -1;
    return length > 0 && length < (int)sizeof place->sun_path;
}

/* Sends or receives the path of a deputy with its descriptors; whether all of it has come. */
static bool pass(int connection, char *path, int *given, bool sends) {
    union {
        struct cmsghdr header;
        char bytes[CMSG_SPACE(GIVEN * sizeof(int))];
    } control;
    struct iovec piece = {path, sends ? strlen(path) + 1 : LONGEST_PATH};
    struct msghdr message = {.msg_iov = &piece, .msg_iovlen = 1, .msg_control = &control, .msg_controllen = sizeof control};
    if (sends) {
        control.header = (struct cmsghdr){CMSG_LEN(GIVEN * sizeof(int)), SOL_SOCKET, SCM_RIGHTS};
        memcpy(CMSG_DATA(&control.header), given, GIVEN * sizeof(int));
        return sendmsg(connection, &message, MSG_NOSIGNAL) > 0;
    }
    ssize_t length = recvmsg(connection, &message, MSG_CMSG_CLOEXEC | MSG_DONTWAIT);
    struct cmsghdr *header = length > 0 && !path[length - 1] ? CMSG_FIRSTHDR(&message) : 0;
    if (!header || header->cmsg_type != SCM_RIGHTS || header->cmsg_len != CMSG_LEN(GIVEN * sizeof(int)))
        return false;
    memcpy(given, CMSG_DATA(header), GIVEN * sizeof(int));
    return true;
}

/* Waits for a byte; whether one has come. */
static bool hears(int connection) {
    char byte;
    ssize_t got;
    while ((got = recv(connection, &byte, 1, 0)) < 0 && errno == EINTR)
        ;
    return got == 1;
}

/* Is the deputy of a master that the relay above starts, until that has ended. Returns where no relay does so. */
static void be_deputy(const char *own) {
    char path[LONGEST_PATH];
    snprintf(path, sizeof path, "%s", own);
    struct sockaddr_un place;
    int given[GIVEN] = {0, 1, 2}, asked = place_of(&place) ? socket(AF_UNIX, SOCK_SEQPACKET | SOCK_CLOEXEC, 0) : -1;
    if (asked < 0)
        return;
    if (connect(asked, (struct sockaddr *)&place, sizeof place) == 0 && pass(asked, path, given, true) && hears(asked)) {
        prctl(PR_SET_NAME, "prefork-deputy");
        close(0);
        close(1);
        while (hears(asked))
            ;
        _exit(0);
    }
    close(asked);
}

/* Whether a process was started by the master in charge. */
static bool is_of_master(pid_t process) {
    char path[64], line[512] = "";
    int parent = 0;
    snprintf(path, sizeof path, "/proc/%d/stat", (int)process);
    int file = open(path, O_RDONLY | O_CLOEXEC);
    ssize_t length = file < 0 ? -1 : read(file, line, sizeof line - 1);
    if (file >= 0)
        close(file);
    const char *name_end = length > 0 ? strrchr(line, ')') : 0;
    return name_end && sscanf(name_end, ") %*c %d", &parent) == 1 && parent == all.master;
}

/* Starts a master with these descriptors; its process, or -1. */
static pid_t start(Become become, const char *path, const int *given) {
    pid_t own = getpid(), process = fork();
    if (process)
        return process;
    prctl(PR_SET_PDEATHSIG, SIGKILL);
    signal(SIGPIPE, SIG_DFL);
    sigprocmask(SIG_SETMASK, &all.before, 0);
    for (int number = 0; number < GIVEN; number++)
        if (given[number] != number)
            dup2(given[number], number);
    if (getppid() == own)
        become(path);
    _exit(1);
}

/* A descriptor by which that of a pipe can be opened again, and which does not keep the pipe open. */
static int opened_again(int descriptor, int flags) {
    char path[64];
    snprintf(path, sizeof path, "/proc/self/fd/%d", descriptor);
    return open(path, flags | O_CLOEXEC);
}

static void forget_next(void) {
    drop(&all.next.deputy);
    drop(&all.next.input);
    drop(&all.next.output);
    all.next.process = -1;
}

/* Receives the connection of a process that asks to be deputy, with what it gives; -1 if it may not: there is a next master
 * already, or the master in charge has not started that process. */
static int accepted(char *path, int *given) {
    struct ucred peer;
    socklen_t size = sizeof peer;
    int asker = accept4(all.listener, 0, 0, SOCK_CLOEXEC);
    struct pollfd asked = {asker, POLLIN, 0};
    if (asker < 0 || getsockopt(asker, SOL_SOCKET, SO_PEERCRED, &peer, &size) < 0 || !is_of_master(peer.pid) ||
        all.next.process > 0 || poll(&asked, 1, ASK_MILLISECONDS) <= 0 || !pass(asker, path, given, false))
        drop(&asker);
    return asker;
}

/* Starts the next master, for its deputy. */
static void start_next(Become become) {
    char path[LONGEST_PATH];
    int given[GIVEN], asker = accepted(path, given);
    if (asker < 0)
        return;
    all.next = (struct next){-1, asker, opened_again(given[0], O_PATH), opened_again(given[1], O_PATH)};
    if (all.next.input >= 0 && all.next.output >= 0)
        all.next.process = start(become, path, given);
    if (all.next.process > 0 && send(asker, "+", 1, MSG_NOSIGNAL) != 1)
        kill(all.next.process, SIGKILL);
    for (int number = 0; number < GIVEN; number++)
        close(given[number]);
    if (all.next.process < 0)
        forget_next();
}

/* Takes the place of a master that has left at the pipes of the next one. */
static void replace(void) {
    int to = opened_again(all.next.input, O_WRONLY | O_NONBLOCK);
    int from = opened_again(all.next.output, O_RDONLY | O_NONBLOCK);
    if (to < 0 || from < 0) {
        drop(&to);
        drop(&from);
        return;
    }
    kill(all.master, SIGKILL);
    while (waitpid(all.master, 0, 0) < 0 && errno == EINTR)
        ;
    drop(&all.down.to);
    drop(&all.up.from);
    all.down.to = to;
    all.up.from = from;
    all.master = all.next.process;
    all.image = all.next_image;
    forget_next();
}

/* What a line from above means: of which image the master is, and that it leaves. */
static void see_down(const char *line) {
    unsigned image, next;
    int length = 0;
    if (sscanf(line, "m%9u %n", &image, &length) != 1 || !length)
        return;
    all.image = all.image ? all.image : image;
    if (sscanf(line + length, "spawn-master %9u", &next) == 1 && image == all.image)
        all.next_image = next;
    all.leaves = image == all.image && !strcmp(line + length, "leave");
}

static void see_up(const char *line) {
    bool has_left = all.leaves && !strcmp(line, "ok");
    all.leaves = false;
    if (has_left && all.next.process > 0)
        replace();
}

/* Looks at the bytes that have come, line by line. One that is too long does not matter. */
static void see(struct way *way, const char *text, size_t count) {
    for (size_t at = 0; at < count; at++) {
        if (text[at] != '\n') {
            way->line[way->length < LONGEST_LINE - 1 ? way->length : LONGEST_LINE - 1] = text[at];
            way->length += way->length < LONGEST_LINE;
            continue;
        }
        way->line[way->length < LONGEST_LINE ? way->length : 0] = 0;
        way->length = 0;
        if (way == &all.down)
            see_down(way->line);
        else
            see_up(way->line);
    }
}

/* Reads what has come, and forgets an end that has nothing more. */
static void take(struct way *way) {
    ssize_t got = read(way->from, way->text, ROOM);
    if (got < 0 && (errno == EAGAIN || errno == EINTR))
        return;
    if (got <= 0) {
        drop(&way->from);
        return;
    }
    way->begin = 0;
    way->end = (size_t)got;
    see(way, way->text, way->end);
}

/* Writes what waits. Where nobody reads it any more, nothing more is read. */
static void give(struct way *way) {
    ssize_t put = write(way->to, way->text + way->begin, way->end - way->begin);
    if (put < 0 && (errno == EAGAIN || errno == EINTR))
        return;
    way->begin = put < 0 ? way->end : way->begin + (size_t)put;
    if (put < 0)
        drop(&way->from);
}

/* Passes on what can be: more is read once all of it was written. */
static void move(struct way *way) {
    if (way->begin == way->end && way->from >= 0)
        take(way);
    if (way->begin < way->end)
        give(way);
    if (way->from < 0 && way->begin == way->end)
        drop(&way->to);
}

static struct pollfd wait_for(const struct way *way) {
    return way->begin < way->end ? (struct pollfd){way->to, POLLOUT, 0} : (struct pollfd){way->from, POLLIN, 0};
}

/* Ends as the master in charge has, once all that it has said is passed on. */
static void end(int status) __attribute__((noreturn));

static void end(int status) {
    while (all.up.from >= 0 || all.up.begin < all.up.end) {
        struct pollfd waits = wait_for(&all.up);
        poll(&waits, 1, -1);
        move(&all.up);
    }
    _exit(WIFEXITED(status) ? WEXITSTATUS(status) : 128 + WTERMSIG(status));
}

static void bury(void) {
    struct signalfd_siginfo told;
    int status;
    pid_t ended;
    while (read(all.children, &told, sizeof told) > 0)
        ;
    while ((ended = waitpid(-1, &status, WNOHANG)) > 0) {
        if (ended == all.next.process)
            forget_next();
        if (ended == all.master)
            end(status);
    }
}

/* Listens for deputies. Without it, a later master gets a relay of its own. */
static int listener(void) {
    struct sockaddr_un place;
    int made = place_of(&place) ? socket(AF_UNIX, SOCK_SEQPACKET | SOCK_CLOEXEC | SOCK_NONBLOCK, 0) : -1;
    if (made < 0)
        return -1;
    unlink(place.sun_path);
    if (bind(made, (struct sockaddr *)&place, sizeof place) < 0 || listen(made, 4) < 0)
        drop(&made);
    return made;
}

/* Starts the first new master; whether it could be. */
static bool begin(Become become, const char *own) {
    int down[2], up[2];
    sigset_t children;
    sigemptyset(&children);
    sigaddset(&children, SIGCHLD);
    sigprocmask(SIG_BLOCK, &children, &all.before);
    all.children = signalfd(-1, &children, SFD_CLOEXEC | SFD_NONBLOCK);
    all.next = (struct next){-1, -1, -1, -1};
    if (all.children < 0 || pipe2(down, O_CLOEXEC) < 0 || pipe2(up, O_CLOEXEC) < 0)
        return false;
    all.master = start(become, own, (int[GIVEN]){down[0], up[1], 2});
    close(down[0]);
    close(up[1]);
    all.down = (struct way){.from = 0, .to = down[1]};
    all.up = (struct way){.from = up[0], .to = 1};
    int ends[] = {0, 1, down[1], up[0]};
    for (size_t at = 0; at < sizeof ends / sizeof *ends; at++)
        fcntl(ends[at], F_SETFL, fcntl(ends[at], F_GETFL) | O_NONBLOCK);
    return all.master > 0;
}

void relay(Become become, const char *own) {
    be_deputy(own);
    if (!begin(become, own)) {
        /* Without a relay it passes lines on by itself. */
        sigprocmask(SIG_SETMASK, &all.before, 0);
        become(own);
        _exit(1);
    }
    signal(SIGPIPE, SIG_IGN);
    prctl(PR_SET_NAME, "prefork-relay");
    all.listener = listener();
    for (;;) {
        struct pollfd waits[PLACES] = {
            wait_for(&all.down),       wait_for(&all.up), {all.listener, POLLIN, 0}, {all.children, POLLIN, 0},
            {all.next.deputy, POLLIN, 0}};
        poll(waits, PLACES, -1);
        if (waits[DEPUTY].revents) {
            /* It was killed in place of the next master. */
            drop(&all.next.deputy);
            kill(all.next.process, SIGKILL);
        }
        move(&all.down);
        move(&all.up);
        if (waits[LISTENER].revents)
            start_next(become);
        if (waits[CHILDREN].revents)
            bury();
    }
}

/* A program accepts connections at a socket if one of its processes watches the socket by epoll, waits at it in a
 * system call (poll, select, accept), or has a connection that came from it. */
#define _GNU_SOURCE
#include "waiting.h"

#include <arpa/inet.h>
#include <dirent.h>
#include <errno.h>
#include <fcntl.h>
#include <netinet/in.h>
#include <poll.h>
#include <stdint.h>
#include <stdio.h>
#include <stdlib.h>
#include <string.h>
#include <sys/stat.h>
#include <sys/syscall.h>
#include <unistd.h>

#define MOST_POLLED 4096
#define MOST_HELD 1024

/* What is known of the descriptors of one process: which number is which listening socket, and the inodes of the
 * other sockets. */
struct descriptors {
    struct {
        int number, listener;
    } listening[4 * MOST_LISTENERS];
    int listening_count;
    ino_t held[MOST_HELD];
    int held_count;
};

static int listener_of(const struct waiting *waiting, ino_t inode) {
    for (int at = 0; at < waiting->count; at++)
        if (waiting->of[at].inode == inode)
            return at;
    return -1;
}

/* Address and port of a TCP socket, each four bytes of the address as one number of this machine. */
static void write_place(char *place, size_t room, int listener) {
    union {
        struct sockaddr any;
        struct sockaddr_in four;
        struct sockaddr_in6 six;
    } name;
    socklen_t length = sizeof name;
    if (getsockname(listener, &name.any, &length) < 0)
        return;
    if (name.any.sa_family == AF_INET)
        snprintf(place, room, "%08X:%04X", name.four.sin_addr.s_addr, ntohs(name.four.sin_port));
    if (name.any.sa_family == AF_INET6) {
        uint32_t part[4];
        memcpy(part, &name.six.sin6_addr, sizeof part);
        snprintf(place, room, "%08X%08X%08X%08X:%04X", part[0], part[1], part[2], part[3], ntohs(name.six.sin6_port));
    }
}

void begin_waiting(struct waiting *waiting, const struct addresses *addresses) {
    memset(waiting, 0, sizeof *waiting);
    for (int at = 0; at < addresses->count; at++) {
        struct stat found;
        int listener = addresses->of[at].listener;
        if (fstat(listener, &found) < 0)
            fail("%s: %s", addresses->of[at].text, strerror(errno));
        waiting->of[at].inode = found.st_ino;
        write_place(waiting->of[at].place, sizeof waiting->of[at].place, listener);
        waiting->count++;
    }
}

static void see(struct waiting *waiting, int listener) {
    if (listener >= 0)
        waiting->of[listener].is_seen = true;
}

static void see_number(struct waiting *waiting, const struct descriptors *found, int number) {
    for (int at = 0; at < found->listening_count; at++)
        if (found->listening[at].number == number)
            see(waiting, found->listening[at].listener);
}

/* What an epoll set watches. */
static void look_at_epoll(struct waiting *waiting, const char *process, const char *number) {
    char path[300], line[256];
    snprintf(path, sizeof path, "/proc/%s/fdinfo/%s", process, number);
    FILE *file = fopen(path, "re");
    while (file && fgets(line, sizeof line, file)) {
        const char *inode = strstr(line, "ino:");
        if (!strncmp(line, "tfd:", 4) && inode)
            see(waiting, listener_of(waiting, strtoul(inode + 4, 0, 16)));
    }
    if (file)
        fclose(file);
}

static void look_at_descriptor(struct waiting *waiting, struct descriptors *found, const char *process,
                               const char *number) {
    char path[300], target[64];
    snprintf(path, sizeof path, "/proc/%s/fd/%s", process, number);
    ssize_t length = readlink(path, target, sizeof target - 1);
    target[length > 0 ? length : 0] = 0;
    if (!strcmp(target, "anon_inode:[eventpoll]"))
        look_at_epoll(waiting, process, number);
    if (strncmp(target, "socket:[", 8))
        return;
    ino_t inode = strtoul(target + 8, 0, 10);
    int listener = listener_of(waiting, inode);
    if (listener >= 0 && found->listening_count < 4 * MOST_LISTENERS) {
        found->listening[found->listening_count].number = atoi(number);
        found->listening[found->listening_count++].listener = listener;
    } else if (listener < 0 && found->held_count < MOST_HELD) {
        found->held[found->held_count++] = inode;
    }
}

static void look_at_polled(struct waiting *waiting, const struct descriptors *found, int memory, off_t place,
                           size_t count) {
    static struct pollfd polled[MOST_POLLED];
    if (count > MOST_POLLED)
        count = MOST_POLLED;
    ssize_t length = pread(memory, polled, count * sizeof *polled, place);
    for (size_t at = 0; length > 0 && at < (size_t)length / sizeof *polled; at++)
        see_number(waiting, found, polled[at].fd);
}

static void look_at_selected(struct waiting *waiting, const struct descriptors *found, int memory, off_t place,
                             int count) {
    unsigned char bits[FD_SETSIZE / 8] = {0};
    if (pread(memory, bits, sizeof bits, place) <= 0)
        return;
    for (int number = 0; number < count && number < FD_SETSIZE; number++)
        if (bits[number / 8] >> number % 8 & 1)
            see_number(waiting, found, number);
}

static bool is_poll(long call) {
#ifdef SYS_poll
    if (call == SYS_poll)
        return true;
#endif
    return call == SYS_ppoll;
}

static bool is_select(long call) {
#ifdef SYS_select
    if (call == SYS_select)
        return true;
#endif
    return call == SYS_pselect6;
}

/* The system call in which a thread waits. */
static void look_at_thread(struct waiting *waiting, const struct descriptors *found, const char *process,
                           const char *thread) {
    char path[300], line[256] = "";
    long call;
    unsigned long first, second;
    snprintf(path, sizeof path, "/proc/%s/task/%s/syscall", process, thread);
    FILE *file = fopen(path, "re");
    bool is_read = file && fgets(line, sizeof line, file);
    if (file)
        fclose(file);
    if (!is_read || sscanf(line, "%ld 0x%lx 0x%lx", &call, &first, &second) != 3)
        return;
    if (call == SYS_accept || call == SYS_accept4) {
        see_number(waiting, found, (int)first);
        return;
    }
    if (!is_poll(call) && !is_select(call))
        return;
    snprintf(path, sizeof path, "/proc/%s/mem", process);
    int memory = open(path, O_RDONLY | O_CLOEXEC);
    if (memory < 0)
        return;
    if (is_poll(call))
        look_at_polled(waiting, found, memory, (off_t)first, second);
    else
        look_at_selected(waiting, found, memory, (off_t)second, (int)first);
    close(memory);
}

/* Connections that came from a listening socket: a program that is always at work is never seen to wait. */
static void look_at_connections(struct waiting *waiting, const struct descriptors *found, const char *path) {
    char line[256], place[48];
    unsigned state;
    unsigned long inode;
    FILE *file = found->held_count ? fopen(path, "re") : 0;
    while (file && fgets(line, sizeof line, file)) {
        if (sscanf(line, "%*d: %47s %*s %x %*s %*s %*s %*s %*s %lu", place, &state, &inode) != 3 || state == 10)
            continue;
        for (int at = 0; at < found->held_count; at++)
            for (int of = 0; found->held[at] == inode && of < waiting->count; of++)
                if (!strcmp(waiting->of[of].place, place))
                    see(waiting, of);
    }
    if (file)
        fclose(file);
}

static void look_at_process(struct waiting *waiting, const char *process) {
    static struct descriptors found;
    char path[300];
    struct dirent *entry;
    memset(&found, 0, sizeof found);
    snprintf(path, sizeof path, "/proc/%s/fd", process);
    DIR *folder = opendir(path);
    while (folder && (entry = readdir(folder)))
        if (entry->d_name[0] != '.')
            look_at_descriptor(waiting, &found, process, entry->d_name);
    if (folder)
        closedir(folder);
    snprintf(path, sizeof path, "/proc/%s/task", process);
    folder = found.listening_count ? opendir(path) : 0;
    while (folder && (entry = readdir(folder)))
        if (entry->d_name[0] != '.')
            look_at_thread(waiting, &found, process, entry->d_name);
    if (folder)
        closedir(folder);
    look_at_connections(waiting, &found, "/proc/net/tcp");
    look_at_connections(waiting, &found, "/proc/net/tcp6");
}

bool is_waited_for(struct waiting *waiting, pid_t session) {
    struct dirent *entry;
    DIR *folder = opendir("/proc");
    while (folder && (entry = readdir(folder))) {
        pid_t process = (pid_t)atoi(entry->d_name);
        if (process > 0 && getsid(process) == session)
            look_at_process(waiting, entry->d_name);
    }
    if (folder)
        closedir(folder);
    for (int at = 0; at < waiting->count; at++)
        if (!waiting->of[at].is_seen)
            return false;
    return true;
}

const char *unseen_address(const struct waiting *waiting, const struct addresses *addresses) {
    for (int at = 0; at < waiting->count; at++)
        if (!waiting->of[at].is_seen)
            return addresses->of[at].text;
    return "";
}

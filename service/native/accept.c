/* prefork-gate.so
 *
 * Is loaded into a program whose worker is probed (LD_PRELOAD), and lets it accept no connection from the shared sockets
 * before the probe has passed: until then these look as if nobody had connected. The probe's own socket is not among them.
 *
 * The file of PREFORK_SHUT is mapped at the start of a process, and inherited by what that forks; prefork-activate writes
 * into it once. A process that cannot read it is not held back, and after that a call costs one comparison. */
#define _GNU_SOURCE
#include "shut.h"

#include <dlfcn.h>
#include <errno.h>
#include <fcntl.h>
#include <stdbool.h>
#include <stdlib.h>
#include <sys/mman.h>
#include <sys/socket.h>
#include <sys/stat.h>
#include <time.h>
#include <unistd.h>

/* How long a program that would ask again and again is held up, in nanoseconds, and one that waits in accept. */
#define SHORT_PAUSE 2000000
#define PAUSE 10000000

static const volatile struct shut *shut;

__attribute__((constructor)) static void begin(void) {
    const char *path = getenv(SHUT_NAME);
    int file = path ? open(path, O_RDONLY | O_CLOEXEC) : -1;
    if (file < 0)
        return;
    struct stat found;
    bool is_whole = !fstat(file, &found) && found.st_size == (off_t)sizeof *shut;
    void *mapped = is_whole ? mmap(0, sizeof *shut, PROT_READ, MAP_SHARED, file, 0) : MAP_FAILED;
    close(file);
    if (mapped != MAP_FAILED)
        shut = mapped;
}

static bool is_shut(int socket) {
    struct stat found;
    if (!shut || shut->is_open || fstat(socket, &found))
        return false;
    for (uint32_t at = 0; at < shut->count && at < MOST_SHUT; at++)
        if (shut->inodes[at] == found.st_ino)
            return true;
    return false;
}

static bool has_paused(long nanoseconds) {
    struct timespec pause = {0, nanoseconds};
    return !nanosleep(&pause, 0);
}

/* Whether the program may accept now. Otherwise errno says why not: a signal has come, or nobody has connected. */
static bool may_accept(int socket) {
    int fault = errno;
    while (is_shut(socket)) {
        if (fcntl(socket, F_GETFL) & O_NONBLOCK) {
            has_paused(SHORT_PAUSE);
            errno = EAGAIN;
            return false;
        }
        if (!has_paused(PAUSE))
            return false;
    }
    errno = fault;
    return true;
}

int accept(int socket, struct sockaddr *restrict address, socklen_t *restrict length) {
    int (*next)(int, struct sockaddr *, socklen_t *) = (int (*)(int, struct sockaddr *, socklen_t *))dlsym(RTLD_NEXT, "accept");
    return may_accept(socket) ? next(socket, address, length) : -1;
}

int accept4(int socket, struct sockaddr *restrict address, socklen_t *restrict length, int flags) {
    int (*next)(int, struct sockaddr *, socklen_t *, int) =
        (int (*)(int, struct sockaddr *, socklen_t *, int))dlsym(RTLD_NEXT, "accept4");
    return may_accept(socket) ? next(socket, address, length, flags) : -1;
}

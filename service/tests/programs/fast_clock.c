/* fast_clock.c: a library for tests. In a process whose first arguments have the word FAST_CLOCK_OF, time goes FAST_CLOCK times
 * as fast from the second FAST_CLOCK_FROM of the system's clock on. Other processes have the usual clock. */
#define _GNU_SOURCE
#include <errno.h>
#include <poll.h>
#include <signal.h>
#include <stdlib.h>
#include <string.h>
#include <sys/epoll.h>
#include <sys/syscall.h>
#include <time.h>
#include <unistd.h>

#define BILLION 1000000000LL
/* An interpreter, its option, a program and its first argument. */
#define FIRST_WORDS 4

static long long factor = 1, from;

__attribute__((constructor)) static void begin(int count, char **words) {
    const char *times = getenv("FAST_CLOCK"), *since = getenv("FAST_CLOCK_FROM"), *word = getenv("FAST_CLOCK_OF");
    for (int at = 0; times && since && word && at < count && at < FIRST_WORDS; at++)
        if (!strcmp(words[at], word)) {
            factor = atoll(times);
            from = atoll(since) * BILLION;
        }
}

/* A limit in milliseconds: none stays none, and a short one is no busy loop. */
static int shorter(int limit) {
    return limit <= 0 ? limit : limit < factor ? 1 : (int)(limit / factor);
}

int clock_gettime(clockid_t clock, struct timespec *now) {
    int status = (int)syscall(SYS_clock_gettime, clock, now);
    if (!status && clock == CLOCK_MONOTONIC && factor > 1) {
        long long nanoseconds = from + (now->tv_sec * BILLION + now->tv_nsec - from) * factor;
        now->tv_sec = nanoseconds / BILLION;
        now->tv_nsec = nanoseconds % BILLION;
    }
    return status;
}

int clock_nanosleep(clockid_t clock, int flags, const struct timespec *until, struct timespec *left) {
    struct timespec real = *until;
    if (factor > 1 && clock == CLOCK_MONOTONIC) {
        long long nanoseconds = until->tv_sec * BILLION + until->tv_nsec;
        nanoseconds = flags & TIMER_ABSTIME ? from + (nanoseconds - from) / factor : nanoseconds / factor;
        real.tv_sec = nanoseconds / BILLION;
        real.tv_nsec = nanoseconds % BILLION;
    }
    return syscall(SYS_clock_nanosleep, clock, flags, &real, left) ? errno : 0;
}

int poll(struct pollfd *all, nfds_t count, int limit) {
    int real = shorter(limit);
    struct timespec most = {real / 1000, real % 1000 * 1000000L};
    return (int)syscall(SYS_ppoll, all, count, real < 0 ? NULL : &most, NULL, 0);
}

int epoll_wait(int events, struct epoll_event *found, int most, int limit) {
    return (int)syscall(SYS_epoll_pwait, events, found, most, shorter(limit), NULL, _NSIG / 8);
}

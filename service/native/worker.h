/* What the parts of prefork-activate share. */
#ifndef WORKER_H
#define WORKER_H

#include <stdbool.h>
#include <sys/types.h>

/* A master has at most 64 listeners. */
#define MOST_LISTENERS 64
/* The first descriptor that a program gets, by the convention of LISTEN_FDS. */
#define FIRST_DESCRIPTOR 3

enum ready { READY_ACCEPT, READY_NOTIFY, READY_PROBE };

/* The command line. Times are in seconds. */
struct options {
    enum ready ready;
    double ready_within, finish, probe_within, probe_limit;
    int stop, usr1;
    bool blocking, no_listen_fds, is_check;
    const char *probe;
    char **settings;
    int setting_count;
    char **command;
};

/* An address that the worker was told, and its listening socket. */
struct address {
    char *text;
    int listener;
};

/* All addresses, and the connection to the keeper that holds them; -1 before the first one is asked for. */
struct addresses {
    struct address of[MOST_LISTENERS];
    int count, hold;
};

/* Prints a message for people on standard error. */
void warn_of(const char *form, ...) __attribute__((format(printf, 1, 2)));
/* Prints a message and ends with status 1. */
void fail(const char *form, ...) __attribute__((format(printf, 1, 2), noreturn));
/* Seconds of a clock that only goes forward. */
double now(void);

void read_options(int count, char **words, struct options *options);

/* keeper.c: whether the configuration of this generation has an address, as far as PREFORK_ADDRESSES says. While it
 * reloads, a master names those of the configuration before, too: a program can't give a socket back that it has. */
bool is_of_generation(const char *text);
/* Asks the keeper for an address. Ends the worker if it cannot have it. */
void take_address(struct addresses *addresses, const char *text);
/* Puts them into the order of the configuration. */
void arrange_addresses(struct addresses *addresses);
/* Closes the listening sockets. They are the program's, and the worker still holds the addresses at the keeper. */
void forget_listeners(struct addresses *addresses);

#endif

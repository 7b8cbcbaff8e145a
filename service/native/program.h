/* The program of a worker, and the process that holds it. */
#ifndef PROGRAM_H
#define PROGRAM_H

#include "worker.h"

/* What the program is given. */
struct gifts {
    const struct options *options;
    const struct addresses *addresses;
    /* The socket of the probe, or -1. */
    int probe;
    const char *room, *notify, *probe_place;
    /* The file that says which sockets are shut until the probe has passed, if they are, and the library that reads it. */
    const char *gate, *library;
};

/* The holder's messages: the program's process number, why it could not be started, its exit status. */
enum news { NEWS_STARTED, NEWS_REFUSED, NEWS_ENDED };

struct message {
    enum news news;
    int value;
};

/* Starts a process that starts the program, passes signals on to it, and tells of its end. The number of the process,
 * and in `line` the socket to it. When the socket closes, it kills all that the program has started and removes the
 * room: at the end of this process too, however that ends. */
pid_t start_holder(const struct gifts *gifts, int *line);

#endif

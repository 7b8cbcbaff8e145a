/* Requests at a socket that only this worker's program has. */
#ifndef PROBE_H
#define PROBE_H

#include "worker.h"

struct probe {
    const char *path, *place;
    double within;
    int listener, connection;
    /* When the request was sent, when the last answer came, and when the next request is due. */
    double asked, answered, due;
    bool is_well, is_told;
    /* How many answers in a row had a status of 500 or more. */
    int wrong;
    char head[16];
    size_t length;
};

/* Opens the socket at a place. */
void open_probe(struct probe *probe, const char *place, const struct options *options);
/* Sends a request if one is due, and reads what has come. To be called whenever time has passed. */
void go_on_probing(struct probe *probe);
/* How long until something is due, in seconds. */
double until_probe(const struct probe *probe);

#endif

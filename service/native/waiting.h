/* Who waits for connections, as /proc shows it. */
#ifndef WAITING_H
#define WAITING_H

#include "worker.h"

/* The listening sockets of a program, and at which of them it was seen to accept connections. */
struct waiting {
    struct {
        ino_t inode;
        /* Address and port as /proc/net/tcp and tcp6 write them, or the empty text. */
        char place[48];
        bool is_seen;
    } of[MOST_LISTENERS];
    int count;
};

void begin_waiting(struct waiting *waiting, const struct addresses *addresses);
/* Looks at the processes of a session once; whether each socket has been seen by now. */
bool is_waited_for(struct waiting *waiting, pid_t session);
/* The first address at which it was not seen to accept; the empty text if there is none. */
const char *unseen_address(const struct waiting *waiting, const struct addresses *addresses);

#endif

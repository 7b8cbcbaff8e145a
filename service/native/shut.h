/* What prefork-activate and prefork-gate.so share: a file that says which sockets a program may not accept from yet. */
#ifndef SHUT_H
#define SHUT_H

#include <stdint.h>

#define MOST_SHUT 64
/* The name of the file, in the environment of the program. */
#define SHUT_NAME "PREFORK_SHUT"

struct shut {
    /* Not 0 once the program may accept. */
    uint32_t is_open;
    uint32_t count;
    /* The numbers of the sockets, as fstat gives them. */
    uint64_t inodes[MOST_SHUT];
};

#endif

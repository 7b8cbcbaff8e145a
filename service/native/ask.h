/* Questions to the keeper. */
#ifndef ASK_H
#define ASK_H

#include <sys/types.h>

/* A connection to the keeper at this path, or -1. */
int connect_keeper(const char *path);
/* Asks for an address, or for `errors`, and waits for the answer, ten seconds at most. Gives the length of the answer,
 * or -1 if none came in time or the keeper has gone (errno is ETIMEDOUT or another one). The descriptor that came with
 * it, or -1, goes to `given`. */
ssize_t ask_keeper(int connection, const char *text, char *answer, size_t room, int *given);

#endif

/* How all that a program has started is ended. */
#ifndef ENDING_H
#define ENDING_H

#include <sys/types.h>

/* Lets this process get the orphans among its descendants. */
void adopt_orphans(void);
/* Lets this process go on when its parent ends, if it was stopped: it has to end the program. */
void continue_without_parent(void);
/* Kills the children of this process, and what they leave, until there are none. Two of them are known by their numbers,
 * or are 0. */
void kill_all(pid_t holder, pid_t program);
/* Lets a child end by itself, for some seconds, and continues it if it was stopped; whether it has ended. */
int has_ended_within(pid_t child, double seconds);
/* Removes the folder of a program. */
void remove_room(const char *room);

#endif

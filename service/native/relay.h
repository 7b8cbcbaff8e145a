/* What is between the first master of a service and the one that an upgrade has left in charge. */
#ifndef RELAY_H
#define RELAY_H

/* Starts a new master by `become`, which replaces its process, and passes on what it is told and what it answers. Where
 * there is a relay already, that one does so in place of this process. `own` is the path of this program, which workers of
 * the master are started by. Ends when the master does. */
void relay(void (*become)(const char *own), const char *own) __attribute__((noreturn));

#endif

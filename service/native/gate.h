/* The gate of a program that is probed: it accepts from the shared sockets only once that is open. */
#ifndef GATE_H
#define GATE_H

#include "worker.h"

/* The library that the program is given, beside prefork-activate; null if it is not there. */
const char *gate_library(void);
/* Writes which sockets are shut into a file; whether that has succeeded. */
bool shut_gate(const char *path, const struct addresses *addresses);
/* Lets the program accept; whether that has succeeded. */
bool open_gate(const char *path);

#endif

/* How the program is started. */
#ifndef START_H
#define START_H

#include "program.h"

/* A descriptor above all that the program gets. */
int first_free(const struct gifts *gifts);
/* Closes all descriptors but 0 to 2, those of the gifts and one more. */
void keep_gifts(const struct gifts *gifts, int kept);
/* Closes those of the gifts: the program has its own. */
void drop_gifts(const struct gifts *gifts);
/* Starts the program in a session of its own; its number. If it cannot be executed, `fault` says why. */
pid_t start_program(const struct gifts *gifts, int *fault);

#endif

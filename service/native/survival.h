/* A worker that serves on after the death of its master. */
#ifndef SURVIVAL_H
#define SURVIVAL_H

#include <stdbool.h>

/* How often a survivor looks whether it is to finish, in seconds. */
#define SURVIVAL_LOOK 0.1

/* Says to the service that this worker serves on, by a file in PREFORK_FOLDER/survivors; whether the service wants that. */
bool begin_survival(void);
/* Whether the worker is to finish: its file is gone, or nobody has touched it for some seconds. */
bool is_survival_over(double seconds);

#endif

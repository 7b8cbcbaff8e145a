/* Why a worker or a new master ends, told to the service. */
#ifndef REASON_H
#define REASON_H

#include <stdbool.h>

/* Appends a line to the file `reasons` of the folder PREFORK_FOLDER: a name, and why. Without a name it is
 * PREFORK_WORKER. Where nobody asks, nothing is done. */
void note_reason(const char *name, const char *why);
/* While a new generation is tried, PREFORK_FOLDER has the file commands/late. A worker that was not ready in time notes its
 * generation there, and the next one that is started for it ends at once: a master that upgrades starts several. */
void note_late(void);
/* The file commands/ready is there as long: a worker that is ready notes its name and its process. */
void note_ready(void);
bool is_known_late(void);

#endif

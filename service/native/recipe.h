/* What the workers of a group are started with: the settings before their command. */
#ifndef RECIPE_H
#define RECIPE_H

#include <stdbool.h>

/* Why a setting could not be made. */
struct refusal {
    char text[512];
};

/* The words of a generation that are for the worker with a number: its section, if the generation has sections. Nothing if
 * no section is for it. */
char **section_for(char **words, unsigned number);
/* The folder of a section, or nothing. */
const char *folder_of(char **words);
/* Makes the settings of a section in this process. The command after them; nothing if one could not be made. */
char **apply_settings(char **words, struct refusal *refusal);

#endif

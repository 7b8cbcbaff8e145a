/* The version, which each program of the service prints. */
#ifndef VERSION_H
#define VERSION_H

#include <stdio.h>
#include <stdlib.h>
#include <string.h>

/* Prints the version and ends, if the one word is --version. */
static inline void tell_version(int count, char **words, const char *name) {
    if (count == 2 && !strcmp(words[1], "--version")) {
        printf("%s %s\n", name, VERSION);
        exit(0);
    }
}

#endif

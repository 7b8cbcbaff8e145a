/* Why a worker or a new master ends, told to the service. */
#define _GNU_SOURCE
#include "reason.h"

#include <fcntl.h>
#include <stdio.h>
#include <stdlib.h>
#include <string.h>
#include <unistd.h>

/* Appends to a file of the folder of the service. Where it is missing nobody asks. */
static void append(const char *name, const char *line, size_t length) {
    char path[4096];
    const char *folder = getenv("PREFORK_FOLDER");
    if (!folder)
        return;
    snprintf(path, sizeof path, "%s/%s", folder, name);
    int file = open(path, O_WRONLY | O_APPEND | O_CLOEXEC);
    if (file < 0)
        return;
    if (write(file, line, length) < 0)
        /* What it says is on standard error too, or said at the end of the word. */
        (void)0;
    close(file);
}

void note_reason(const char *name, const char *why) {
    char line[1200];
    name = name ? name : getenv("PREFORK_WORKER");
    if (!name)
        return;
    int length = snprintf(line, sizeof line, "%s %s\n", name, why);
    if (length >= (int)sizeof line) {
        length = sizeof line - 1;
        line[length - 1] = '\n';
    }
    append("reasons", line, (size_t)length);
}

void note_ready(void) {
    char line[128];
    const char *name = getenv("PREFORK_WORKER");
    int length = snprintf(line, sizeof line, "%.64s %d\n", name ? name : "", (int)getpid());
    if (name)
        append("commands/ready", line, (size_t)length);
}

/* Opens the file of late generations, and gives the generation of this worker with a newline; -1 if the file is missing. */
static int open_late(char *generation, size_t room, int flags) {
    char path[4096];
    const char *folder = getenv("PREFORK_FOLDER"), *name = getenv("PREFORK_WORKER");
    const char *end = name ? strrchr(name, '.') : 0;
    if (!folder || !end)
        return -1;
    snprintf(generation, room, "%.*s\n", (int)(end - name), name);
    snprintf(path, sizeof path, "%s/commands/late", folder);
    return open(path, flags | O_CLOEXEC);
}

void note_late(void) {
    char generation[64];
    int file = open_late(generation, sizeof generation, O_WRONLY | O_APPEND);
    if (file < 0)
        return;
    if (write(file, generation, strlen(generation)) < 0)
        /* The next one waits as long. */
        (void)0;
    close(file);
}

bool is_known_late(void) {
    char generation[64], text[4097] = "\n", wanted[66];
    int file = open_late(generation, sizeof generation, O_RDONLY);
    ssize_t length = file < 0 ? -1 : read(file, text + 1, sizeof text - 2);
    if (file >= 0)
        close(file);
    text[length > 0 ? length + 1 : 0] = 0;
    snprintf(wanted, sizeof wanted, "\n%s", generation);
    return length > 0 && strstr(text, wanted);
}

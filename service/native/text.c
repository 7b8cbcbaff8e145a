/* Messages, and the clock. */
#include "reason.h"
#include "worker.h"

#include <stdarg.h>
#include <stdio.h>
#include <stdlib.h>
#include <time.h>
#include <unistd.h>

static void print(const char *form, va_list values) {
    char text[1024];
    vsnprintf(text, sizeof text, form, values);
    dprintf(2, "prefork-activate: worker %d: %s\n", (int)getpid(), text);
    note_reason(0, text);
}

void warn_of(const char *form, ...) {
    va_list values;
    va_start(values, form);
    print(form, values);
    va_end(values);
}

void fail(const char *form, ...) {
    va_list values;
    va_start(values, form);
    print(form, values);
    va_end(values);
    exit(1);
}

double now(void) {
    struct timespec time;
    clock_gettime(CLOCK_MONOTONIC, &time);
    return (double)time.tv_sec + (double)time.tv_nsec / 1e9;
}

/* The heap of the library, over malloc, as the toolchain's own is; with a budget for tests. */
#include <stdbool.h>
#include <stddef.h>
#include <stdlib.h>

/* What the program gets: whether there is memory, and where. Without it the place is no place, and not used. */
struct tried { bool ok; void *at; };
static void *const nowhere = (void *)16;

/* After this number of growths of this thread all more are refused; below 0 none is. */
static _Thread_local long left = -1;
static _Thread_local size_t growths;

void prefork_refuse_after(long count);
size_t prefork_growths(void);
struct tried rattle_alloc(size_t count, size_t align);
struct tried rattle_realloc(void *at, size_t kept, size_t count, size_t align);
void rattle_dealloc(void *at);

void prefork_refuse_after(long count) { left = count; growths = 0; }
size_t prefork_growths(void) { return growths; }

static bool is_refused(void) {
    growths++;
    if (left < 0) return false;
    if (left == 0) return true;
    left--;
    return false;
}

static struct tried given(void *at) { return (struct tried){at != NULL, at != NULL ? at : nowhere}; }

struct tried rattle_alloc(size_t count, size_t align) {
    return is_refused() ? given(NULL) : given(malloc(count ? count : align));
}

struct tried rattle_realloc(void *at, size_t kept, size_t count, size_t align) {
    (void)kept;
    return is_refused() ? given(NULL) : given(realloc(at, count ? count : align));
}

void rattle_dealloc(void *at) { free(at); }

/* What the program asks of the system, answered over texts in memory: arguments, standard input, files, and what is
 * written. It starts no process, and reads and writes no real file. Each thread has texts of its own. Compiled for
 * WebAssembly, it is the system of the page too. */
typedef unsigned char byte;
typedef unsigned long size;

#ifdef __wasm__
#define LOCAL static
#define SHOWN(name) __attribute__((export_name(#name)))
extern void *room(size);
extern void give_back(void *);
/* Hears what is written to standard error, while the program runs. */
extern void told(const byte *, size) __attribute__((import_module("page"), import_name("told")));
extern int program(int, char **) __asm__("main");
#define MAIN program(0, 0)
#else
#include <stdlib.h>
#define LOCAL static _Thread_local
#define SHOWN(name)
#define room malloc
#define give_back free
#define told(at, length) ((void)0)
extern int main(void);
#define MAIN main()
#endif

/* Numbers of faults, as on Linux. */
enum { NO_FILE = 2, BAD_NUMBER = 9, NO_CHILD = 10, NO_MEMORY = 12, IS_FOLDER = 21, NO_SEEK = 29, NOT_HERE = 38 };
enum { FILES = 64, FIRST = 3, OPEN = 4, FOLDER = FILES };

struct text { const byte *at; size length; };
struct reading { const struct text *text; size at; int is_open, is_folder; };
struct writing { byte *at; size room, length; };

LOCAL struct text words, input, names[FILES], texts[FILES];
LOCAL struct reading standard, opened[OPEN];
LOCAL struct writing written[2];
LOCAL int error;

static long refuse(int fault) { error = fault; return -1; }
int rattle_errno(void) { return error; }
void rattle_set_errno(int fault) { error = fault; }

/* Arguments: the words, each with a byte 0 at its end. */
size rattle_arg_count(void) {
    size count = 0;
    for (size i = 0; i < words.length; i++) count += words.at[i] == 0;
    return count;
}

/* Where the word with this number begins; the length of all words if there is none. */
static size start_of(size number) {
    size at = 0;
    for (; number && at < words.length; at++) number -= words.at[at] == 0;
    return number ? words.length : at;
}

long rattle_arg(size number, byte *to, size count) {
    size at = start_of(number), k = 0;
    if (at >= words.length) return -1;
    for (; at + k < words.length && words.at[at + k]; k++) {
        if (k == count) return -2;
        to[k] = words.at[at + k];
    }
    return (long)k;
}

long rattle_env(byte *, byte *, size) { return -1; }
long rattle_env_at(size, byte *, size) { return -1; }

/* Files. */
static int is_text(const char *path, const struct text *text) {
    size k = 0;
    while (k < text->length && path[k] && (byte)path[k] == text->at[k]) k++;
    return text->length && k == text->length && path[k] == 0;
}

/* The number of a file by its path, FOLDER for a folder, or -1. */
static int file_of(const char *path) {
    const struct text folders[] = {{(const byte *)".", 1}, {(const byte *)"..", 2}, {(const byte *)"/", 1}};
    for (int file = 0; file < FILES; file++) if (is_text(path, &names[file])) return file;
    for (int i = 0; i < 3; i++) if (is_text(path, &folders[i])) return FOLDER;
    return -1;
}

int open(const char *path, int, ...) {
    int file = file_of(path);
    if (file < 0) return (int)refuse(NO_FILE);
    for (int i = 0; i < OPEN; i++) {
        if (opened[i].is_open) continue;
        opened[i] = (struct reading){file == FOLDER ? 0 : &texts[file], 0, 1, file == FOLDER};
        return FIRST + i;
    }
    return (int)refuse(NO_MEMORY);
}

/* What is read under a number; none if nothing is. */
static struct reading *reading_of(int number) {
    if (number == 0) return &standard;
    if (number < FIRST || number >= FIRST + OPEN || !opened[number - FIRST].is_open) return 0;
    return &opened[number - FIRST];
}

int close(int number) {
    if (number >= FIRST && number < FIRST + OPEN) opened[number - FIRST].is_open = 0;
    return 0;
}

long read(int number, byte *to, size count) {
    struct reading *from = reading_of(number);
    if (!from) return refuse(BAD_NUMBER);
    if (from->is_folder) return refuse(IS_FOLDER);
    size left = from->text->length - from->at, k = left < count ? left : count;
    if (k) __builtin_memcpy(to, from->text->at + from->at, k);
    from->at += k;
    return (long)k;
}

/* Whether there is room for this number of bytes more. */
static int makes_room(struct writing *to, size count) {
    size needed = to->length + count;
    if (needed <= to->room) return 1;
    size more = needed * 2 + 4096;
    byte *larger = room(more);
    if (!larger) return 0;
    if (to->length) __builtin_memcpy(larger, to->at, to->length);
    if (to->at) give_back(to->at);
    to->at = larger;
    to->room = more;
    return 1;
}

long write(int number, const byte *from, size count) {
    if (number != 1 && number != 2) return refuse(BAD_NUMBER);
    struct writing *to = &written[number - 1];
    if (!makes_room(to, count)) return refuse(NO_MEMORY);
    if (count) __builtin_memcpy(to->at + to->length, from, count);
    to->length += count;
    if (number == 2) told(from, count);
    return (long)count;
}

long __write(int number, const byte *from, size count) { return write(number, from, count); }
long rattle_write_no_sigpipe(int number, const byte *from, size count) { return write(number, from, count); }

/* What else a system has: no terminal, no clock, no process. */
long lseek(int, long, int) { return refuse(NO_SEEK); }
int isatty(int) { return 0; }
int getpid(void) { return 1; }
int poll(void *, size, int) { return 0; }
int fcntl(int, int, ...) { return 0; }
int clock_gettime(int, long *at) { at[0] = at[1] = 0; return 0; }
int statx(int, const char *, int, unsigned, void *) { return (int)refuse(NOT_HERE); }
void *__sysv_signal(int, void *) { return 0; }
int rename(const char *, const char *) { return (int)refuse(NOT_HERE); }
int unlink(const char *) { return (int)refuse(NOT_HERE); }
long readlink(const char *, char *, size) { return refuse(NOT_HERE); }
int waitpid(int, int *, int) { return (int)refuse(NO_CHILD); }
int pipe2(int *, int) { return (int)refuse(NOT_HERE); }
int nanosleep(void *, void *) { return 0; }
int rattle_spawn(void *, void *, size, void *, size, void *, void *) { return (int)refuse(NOT_HERE); }
int rattle_kill_child(int) { return -1; }
int rattle_set_nonblocking(int, _Bool) { return -1; }

/* The processor's features: all of those that the program asks for are there, or are written out (page/build). */
static unsigned leaf[16] = {~0u, ~0u, ~0u, ~0u, ~0u, ~0u, ~0u, ~0u, ~0u, ~0u, ~0u, ~0u, ~0u, ~0u, ~0u, ~0u};
void *__x86_get_cpuid_feature_leaf(unsigned) { return leaf; }

/* 0 the words, the program's name first; 1 standard input; 2 and 3 a file's name and text, 4 and 5 those of the next, and
 * so on. They are not copied. */
static struct text *place_of(int which) {
    if (which == 0) return &words;
    if (which == 1) return &input;
    if (which < 0 || which >= 2 + 2 * FILES) return 0;
    return which % 2 ? &texts[which / 2 - 1] : &names[which / 2 - 1];
}

SHOWN(prefork_give) void prefork_give(int which, const byte *at, size length) {
    struct text *place = place_of(which);
    if (place) *place = (struct text){at, length};
}

/* Runs the program over what was given, forgets that, and answers the program's exit status. */
SHOWN(prefork_run) int prefork_run(void) {
    error = 0;
    standard = (struct reading){&input, 0, 1, 0};
    for (int i = 0; i < OPEN; i++) opened[i].is_open = 0;
    for (int i = 0; i < 2; i++) written[i].length = 0;
    int status = MAIN;
    for (int which = 0; which < 2 + 2 * FILES; which++) *place_of(which) = (struct text){0, 0};
    return status;
}

/* What it wrote to standard output (0) or standard error (1), until the next run of this thread. */
SHOWN(prefork_wrote) byte *prefork_wrote(int which) { return written[which & 1].at; }
SHOWN(prefork_wrote_length) size prefork_wrote_length(int which) { return written[which & 1].length; }

/* Gives back the room of what was written by this thread. */
SHOWN(prefork_forget) void prefork_forget(void) {
    for (int i = 0; i < 2; i++) {
        if (written[i].at) give_back(written[i].at);
        written[i] = (struct writing){0, 0, 0};
    }
}

/* Prefork's program in this process: what it would print of a command line, of texts that stand for files, and of a
 * standard input. It starts no process, and reads and writes no file. Each thread has texts of its own, so that many may
 * run at once. */
#ifndef PREFORK_H
#define PREFORK_H
#include <stddef.h>
#include <stdint.h>
#ifdef __cplusplus
extern "C" {
#endif

/* PREFORK_NAME + 2 * N and PREFORK_TEXT + 2 * N are the name and the text of file N, below PREFORK_FILES. */
enum { PREFORK_WORDS, PREFORK_INPUT, PREFORK_NAME, PREFORK_TEXT, PREFORK_FILES = 64 };

/* Gives one of these texts for the next run of this thread. It is not copied, and must stay until that run has ended. Each
 * word ends with a byte 0, the program's name first: "prefork\0explain\0C4\0". */
void prefork_give(int which, const uint8_t *at, size_t length);

/* Runs the program over what was given, forgets that, and answers the program's exit status. */
int prefork_run(void);

/* What it wrote to standard output (0) or standard error (1). It stays until the next run of this thread. */
const uint8_t *prefork_wrote(int which);
size_t prefork_wrote_length(int which);

/* Gives back the memory of what this thread's runs wrote. Call it before the thread ends. */
void prefork_forget(void);

/* For tests: after this number of growths of memory in this thread all more are refused; below 0 none is. */
void prefork_refuse_after(long count);
size_t prefork_growths(void);

#ifdef __cplusplus
}
#endif
#endif

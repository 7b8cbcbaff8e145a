/* Refuses a growth of memory, a read or a write of a program, for ci/hostile and ci/children; and runs a program again
 * and again from its beginning, for ci/hostile, ci/rehearsals and ci/explorations.
 *
 * Preloaded into the program, and into none that it starts. REFUSE is a letter and a number: m5 refuses the 5th growth
 * of memory (malloc, realloc), r2 fails the 2nd read, w1 the 1st write to standard output. REFUSE_TELL is the number of
 * a descriptor that gets a byte when that has come.
 *
 * Two other variables make copies of the process, of which each has files of its own for what it writes. What comes of
 * each copy is written to a descriptor: a struct ended, and what the copy wrote to standard output and to standard error.
 * Standard input must be a file.
 *
 * REFUSE_AT has a descriptor and two numbers, as 5,2500,97. The program runs once, and at each growth, read or write of
 * the letter a copy of it is made, which has that one refused, runs to its end, and is told. After the first 2,500 that is
 * so at each 97th alone. What comes of the program itself is told last.
 *
 * REFUSE_CUT has two descriptors, as 5,6. For each struct cut that is read from the first one, a copy of the program runs
 * from its beginning, with the argument of that place ending at that size, and is told to the second one. */
#define _GNU_SOURCE
#include <errno.h>
#include <fcntl.h>
#include <signal.h>
#include <stdlib.h>
#include <sys/mman.h>
#include <sys/prctl.h>
#include <sys/syscall.h>
#include <sys/wait.h>
#include <unistd.h>

extern void *__libc_malloc(size_t size);
extern void *__libc_realloc(void *old, size_t size);

/* From this one on, descriptors are this library's: the program has the low ones to itself. Of those below the next one,
 * places in files are kept: the program has few files open at a time. */
enum { FIRST_OWN = 200, MOST_KEPT = 32 };

/* What came of a copy: its status, or the signal that ended it below 0; whether it had something refused; how much it
 * wrote. */
struct ended {
    long status, is_refused, output, errors;
};

/* Where an argument ends early. At place 0, that of the program's name, none does. */
struct cut {
    long place, size;
};

/* The files of what a process writes. */
struct files {
    int output, errors;
};

static char what;
static long left;
static int tell = -1;

/* Of a process of which a copy is made at each growth, read or write: how many there were, and of which a copy is made. */
static long count, all, each;
static int results = -1;
static struct files own, copied;

/* Writes all of these bytes, or ends: nobody reads them any more. */
static void write_all(int to, const char *bytes, size_t size) {
    while (size > 0) {
        ssize_t written = syscall(SYS_write, to, bytes, size);
        if (written < 0 && errno == EINTR)
            continue;
        if (written <= 0)
            _exit(1);
        bytes += written;
        size -= (size_t)written;
    }
}

/* Writes what a file has, from its beginning. */
static void write_file(int to, int file) {
    static char bytes[65536];
    off_t at = 0;
    ssize_t size;
    while ((size = pread(file, bytes, sizeof bytes, at)) > 0) {
        write_all(to, bytes, (size_t)size);
        at += size;
    }
}

/* A descriptor that is not in the program's way. */
static int moved(int descriptor) {
    int own_number = fcntl(descriptor, F_DUPFD_CLOEXEC, FIRST_OWN);
    if (own_number < 0)
        _exit(125);
    close(descriptor);
    return own_number;
}

static struct files new_files(void) {
    struct files made = {memfd_create("output", MFD_CLOEXEC), memfd_create("errors", MFD_CLOEXEC)};
    return (struct files){moved(made.output), moved(made.errors)};
}

/* Makes a file the same as another one, and ready for what is written next. */
static void copy_file(int to, int from) {
    if (ftruncate(to, 0) || lseek(to, 0, SEEK_SET))
        _exit(125);
    if (from >= 0)
        write_file(to, from);
}

/* A copy of this process, which ends with it and writes to these files; 0 in the copy. */
static pid_t copy_of_this(struct files files) {
    pid_t copy = fork();
    if (copy < 0)
        _exit(125);
    if (copy == 0 && (prctl(PR_SET_PDEATHSIG, SIGKILL) || dup2(files.output, 1) < 0 || dup2(files.errors, 2) < 0))
        _exit(125);
    return copy;
}

/* Waits for a copy, and writes what came of it. */
static void tell_end(pid_t copy, long is_refused, int to, struct files files) {
    int status;
    while (waitpid(copy, &status, 0) < 0)
        if (errno != EINTR)
            _exit(125);
    struct ended ended = {WIFEXITED(status) ? WEXITSTATUS(status) : -WTERMSIG(status), is_refused,
                          lseek(files.output, 0, SEEK_END), lseek(files.errors, 0, SEEK_END)};
    write_all(to, (const char *)&ended, sizeof ended);
    write_file(to, files.output);
    write_file(to, files.errors);
}

/* At a growth, read or write: whether this process is a copy, made for it to be refused. A copy reads on in the files of
 * the process that it was copied from, so their places are put back. */
static int is_copy(void) {
    off_t places[MOST_KEPT];
    int kept_errno = errno;
    if (++count > all && (count - all - 1) % each != 0)
        return 0;
    copy_file(copied.output, own.output);
    copy_file(copied.errors, own.errors);
    for (int file = 0; file < MOST_KEPT; file++)
        places[file] = lseek(file, 0, SEEK_CUR);
    pid_t copy = copy_of_this(copied);
    if (copy == 0) {
        results = -1;
        return 1;
    }
    tell_end(copy, 1, results, copied);
    for (int file = 0; file < MOST_KEPT; file++)
        if (places[file] >= 0)
            lseek(file, places[file], SEEK_SET);
    errno = kept_errno;
    return 0;
}

/* Runs the program once, in a process that makes the copies, and tells what came of it. It returns there alone. */
static void refuse_at(const char *numbers) {
    char *end;
    int to = moved((int)strtol(numbers, &end, 10));
    all = strtol(end + 1, &end, 10);
    each = strtol(end + 1, &end, 10);
    own = new_files();
    copied = new_files();
    pid_t program = copy_of_this(own);
    if (program == 0) {
        results = to;
        return;
    }
    tell_end(program, 0, to, own);
    _exit(0);
}

/* Runs a copy for each cut that is read. It returns in the copies alone. */
static void cut_each(const char *numbers, int argc, char **argv) {
    char *end;
    int from = moved((int)strtol(numbers, &end, 10)), to = moved(atoi(end + 1));
    struct files files = new_files();
    struct cut cut;
    while (syscall(SYS_read, from, &cut, sizeof cut) == sizeof cut) {
        copy_file(files.output, -1);
        copy_file(files.errors, -1);
        pid_t copy = copy_of_this(files);
        if (copy == 0) {
            if (lseek(0, 0, SEEK_SET))
                _exit(125);
            if (cut.place > 0 && cut.place < argc)
                argv[cut.place][cut.size] = '\0';
            return;
        }
        tell_end(copy, 0, to, files);
    }
    _exit(0);
}

/* The value of a variable, which the program does not see. */
static const char *taken(const char *name) {
    const char *value = getenv(name);
    unsetenv(name);
    return value;
}

__attribute__((constructor)) static void begin(int argc, char **argv) {
    const char *refuse = taken("REFUSE"), *descriptor = taken("REFUSE_TELL");
    const char *at = taken("REFUSE_AT"), *cuts = taken("REFUSE_CUT");
    unsetenv("LD_PRELOAD");
    if (cuts)
        cut_each(cuts, argc, argv);
    if (!refuse)
        return;
    what = refuse[0];
    if (at) {
        refuse_at(at);
    } else if (descriptor) {
        left = atol(refuse + 1);
        tell = atoi(descriptor);
    }
}

/* Whether this is one that is refused. */
static int is_due(char kind) {
    if (kind != what)
        return 0;
    if (results >= 0)
        return is_copy();
    if (--left != 0)
        return 0;
    syscall(SYS_write, tell, "x", 1);
    return 1;
}

void *malloc(size_t size) {
    if (is_due('m')) {
        errno = ENOMEM;
        return NULL;
    }
    return __libc_malloc(size);
}

void *realloc(void *old, size_t size) {
    if (is_due('m')) {
        errno = ENOMEM;
        return NULL;
    }
    return __libc_realloc(old, size);
}

ssize_t read(int descriptor, void *to, size_t size) {
    if (is_due('r')) {
        errno = EIO;
        return -1;
    }
    return syscall(SYS_read, descriptor, to, size);
}

ssize_t write(int descriptor, const void *from, size_t size) {
    if (descriptor == 1 && is_due('w')) {
        errno = EIO;
        return -1;
    }
    return syscall(SYS_write, descriptor, from, size);
}

ssize_t __write(int descriptor, const void *from, size_t size) {
    return write(descriptor, from, size);
}

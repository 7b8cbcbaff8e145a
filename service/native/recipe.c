#define _GNU_SOURCE
#include "recipe.h"

#include <errno.h>
#include <fcntl.h>
#include <stdio.h>
#include <stdlib.h>
#include <string.h>
#include <sys/resource.h>
#include <unistd.h>

/* What a word begins with that is a setting, and no command. */
#define SETS '\1'
/* What a file with the value of a variable may have at most: what the system takes as one. */
#define LONGEST_VALUE 131072

/* What follows the name of a setting; nothing if the word is another one. */
static const char *value_of(const char *word, const char *name) {
    size_t length = strlen(name);
    bool is_it = word && word[0] == SETS && !strncmp(word + 1, name, length) && word[length + 1] == ' ';
    return is_it ? word + length + 2 : 0;
}

/* How many words a command has that begins after this word; -1 if it is no such word. */
static long count_of(const char *word) {
    const char *value = value_of(word, "command");
    return value ? strtol(value, 0, 10) : -1;
}

char **section_for(char **words, unsigned number) {
    if (!*words || **words != SETS)
        return words;
    while (*words) {
        const char *last = value_of(*words, "workers");
        if (last && number <= strtoul(last, 0, 10))
            return words + 1;
        long count = count_of(*words++);
        for (; count > 0 && *words; count--)
            words++;
    }
    return 0;
}

const char *folder_of(char **words) {
    for (; *words && **words == SETS && count_of(*words) < 0; words++) {
        const char *value = value_of(*words, "folder");
        if (value)
            return value;
    }
    return 0;
}

static bool refuse(struct refusal *refusal, const char *what, const char *why) {
    snprintf(refusal->text, sizeof refusal->text, "%.300s: %.150s", what, why);
    return false;
}

/* A variable whose value is in a file, without the line's end. The value is shown nowhere. */
static bool read_variable(const char *setting, struct refusal *refusal) {
    const char *path = strchr(setting, '=');
    char name[256], *text = calloc(1, LONGEST_VALUE + 1);
    if (!path || !text || (size_t)(path - setting) >= sizeof name)
        return refuse(refusal, "a variable", "it is too long");
    snprintf(name, sizeof name, "%.*s", (int)(path++ - setting), setting);
    int file = open(path, O_RDONLY | O_CLOEXEC | O_NONBLOCK);
    if (file < 0)
        return refuse(refusal, path, strerror(errno));
    ssize_t length = 0, got;
    while ((got = read(file, text + length, (size_t)(LONGEST_VALUE - length))) > 0)
        length += got;
    int fault = got < 0 ? errno : length == LONGEST_VALUE ? E2BIG : 0;
    close(file);
    if (fault)
        return refuse(refusal, path, strerror(fault));
    if (memchr(text, 0, (size_t)length))
        return refuse(refusal, path, "it has a byte 0");
    while (length && (text[length - 1] == '\n' || text[length - 1] == '\r'))
        text[--length] = 0;
    if (setenv(name, text, 1) < 0)
        return refuse(refusal, name, strerror(errno));
    explicit_bzero(text, LONGEST_VALUE);
    free(text);
    return true;
}

static bool set_limit(const char *setting, struct refusal *refusal) {
    int number;
    long long soft, hard;
    if (sscanf(setting, "%d %lld %lld", &number, &soft, &hard) != 3)
        return refuse(refusal, "a limit", setting);
    struct rlimit limit = {soft < 0 ? RLIM_INFINITY : (rlim_t)soft, hard < 0 ? RLIM_INFINITY : (rlim_t)hard};
    return !setrlimit(number, &limit) || refuse(refusal, "a limit of the service's table", strerror(errno));
}

static bool set_nice(const char *setting, struct refusal *refusal) {
    return !setpriority(PRIO_PROCESS, 0, atoi(setting)) || refuse(refusal, "nice", strerror(errno));
}

char **apply_settings(char **words, struct refusal *refusal) {
    for (; *words && **words == SETS; words++) {
        long count = count_of(*words);
        const char *value;
        bool is_made = true;
        if (count >= 0) {
            char **command = ++words;
            for (long at = 0; at < count; at++)
                if (!command[at])
                    count = 0;
            if (!count) {
                refuse(refusal, "the command of a generation", "it is cut");
                return 0;
            }
            command[count] = 0;
            return command;
        }
        if ((value = value_of(*words, "set")))
            is_made = !putenv((char *)value) || refuse(refusal, "a variable", strerror(errno));
        else if ((value = value_of(*words, "read")))
            is_made = read_variable(value, refusal);
        else if ((value = value_of(*words, "nice")))
            is_made = set_nice(value, refusal);
        else if ((value = value_of(*words, "limit")))
            is_made = set_limit(value, refusal);
        if (!is_made)
            return 0;
    }
    return words;
}

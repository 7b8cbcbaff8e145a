/* A master that only spawns and talks, for bench/children: what a reload costs without a plan.
 *
 * talker PROGRAM WORKERS starts as many workers, `PROGRAM child`, and then does the words of standard input, HUP, TTIN
 * and QUIT, saying and hearing the lines that `prefork supervise` says and hears where nothing goes wrong. After each,
 * the start too, it prints `done`. It checks nothing that it can do without. */
#define _GNU_SOURCE
#include <fcntl.h>
#include <signal.h>
#include <spawn.h>
#include <stdio.h>
#include <stdlib.h>
#include <string.h>
#include <sys/wait.h>
#include <unistd.h>

#define MOST 4096

struct worker {
    pid_t pid;
    int told, heard;
};

extern char **environ;
static char *program;
static int starts;

static void say(const struct worker *worker, const char *line) {
    if (write(worker->told, line, strlen(line)) < 0)
        exit(1);
}

static void hear(const struct worker *worker) {
    char line[4096];
    if (read(worker->heard, line, sizeof line) <= 0)
        exit(1);
}

static void start(struct worker *worker, int configuration, int number) {
    int in[2], out[2];
    char line[64], *words[] = {program, "child", NULL};
    posix_spawn_file_actions_t actions;
    if (pipe2(in, O_CLOEXEC) || pipe2(out, O_CLOEXEC))
        exit(1);
    posix_spawn_file_actions_init(&actions);
    posix_spawn_file_actions_adddup2(&actions, in[0], 0);
    posix_spawn_file_actions_adddup2(&actions, out[1], 1);
    if (posix_spawn(&worker->pid, program, &actions, NULL, words, environ))
        exit(1);
    posix_spawn_file_actions_destroy(&actions);
    close(in[0]);
    close(out[1]);
    worker->told = in[1];
    worker->heard = out[0];
    snprintf(line, sizeof line, "worker 1.%d %d %d\n", configuration, number, ++starts);
    say(worker, line);
    say(worker, "listener 0.0.0.0:8080\n");
    say(worker, "go\n");
}

static void each(struct worker *workers, int from, int to, const char *line) {
    for (int i = from; i < to; i++)
        say(&workers[i], line);
}

static void hear_each(struct worker *workers, int from, int to) {
    for (int i = from; i < to; i++)
        hear(&workers[i]);
}

static void census(struct worker *workers, int count) {
    each(workers, 0, count, "ping\n");
    hear_each(workers, 0, count);
}

static void start_each(struct worker *workers, int from, int to, int configuration) {
    for (int i = from; i < to; i++)
        start(&workers[i], configuration, i);
    hear_each(workers, from, to);
    census(workers, to);
}

static void end_each(struct worker *workers, int count) {
    for (int i = 0; i < count; i++) {
        waitpid(workers[i].pid, NULL, 0);
        close(workers[i].told);
        close(workers[i].heard);
    }
}

int main(int count, char **words) {
    static struct worker workers[MOST], old[MOST];
    char word[16];
    int wanted, configuration = 1, leaving = 0;
    if (count != 3)
        return 2;
    program = words[1];
    int number = atoi(words[2]);
    wanted = number;
    setvbuf(stdout, NULL, _IOLBF, 0);
    start_each(workers, 0, wanted, configuration);
    puts("done");
    while (fgets(word, sizeof word, stdin)) {
        if (!strcmp(word, "HUP\n")) {
            end_each(old, leaving);
            memcpy(old, workers, sizeof workers);
            leaving = wanted;
            wanted = number;
            start_each(workers, 0, wanted, ++configuration);
            each(old, 0, leaving, "quit\n");
            census(workers, wanted);
        } else if (!strcmp(word, "TTIN\n")) {
            start_each(workers, wanted, wanted + 1, configuration);
            wanted++;
        } else if (!strcmp(word, "QUIT\n")) {
            each(workers, 0, wanted, "quit\n");
            hear_each(workers, 0, wanted);
            end_each(workers, wanted);
            end_each(old, leaving);
        }
        puts("done");
    }
    return 0;
}

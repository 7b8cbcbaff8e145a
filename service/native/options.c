/* The command line of prefork-activate. */
#define _GNU_SOURCE
#include "worker.h"

#include <getopt.h>
#include <signal.h>
#include <stdio.h>
#include <stdlib.h>
#include <string.h>
#include <unistd.h>

static const char HELP[] = "Usage: prefork-activate [OPTIONS] -- PROGRAM ARGUMENT..\n"
                           "\n"
                           "A worker of a Prefork master that is another program. The program takes its\n"
                           "listening sockets by LISTEN_FDS, by numbers in its arguments, or by its\n"
                           "environment.\n"
                           "\n"
                           "  --ready accept         ready once it waits for connections at each socket (default)\n"
                           "  --ready notify         ready once it sends READY=1 to NOTIFY_SOCKET\n"
                           "  --ready probe          ready once it answers the request of --probe\n"
                           "  --ready-within SECONDS how long it may take to be ready (30)\n"
                           "  --probe PATH           ask it for PATH, at a socket of its own, before each beat\n"
                           "  --probe-within SECONDS how long such an answer may take (5)\n"
                           "  --probe-limit SECONDS  end the worker if no answer has come for this long (30)\n"
                           "  --stop SIGNAL          the signal that tells it to finish (TERM)\n"
                           "  --finish SECONDS       how long it may take to finish (30)\n"
                           "  --usr1 SIGNAL          the signal that tells it to reopen its logs (none)\n"
                           "  --env NAME=VALUE       a variable of its environment\n"
                           "  --no-listen-fds        do not set LISTEN_FDS\n"
                           "  --blocking             make the sockets block, for programs that wait in accept\n"
                           "  --check                only look at the command line\n"
                           "\n"
                           "In arguments and values of --env: {fd} or {fd0} is the number of the first socket,\n"
                           "{fd1} that of the second; {address} or {address0} its address; {fds} all numbers,\n"
                           "each followed by a semicolon; {fpm} ADDRESS=NUMBER, joined by commas; {probe} the\n"
                           "path of the probe's socket; {room} a folder that only this program has.\n";

static int usage(const char *problem, const char *word) {
    fprintf(stderr, "prefork-activate: %s%s; see --help\n", problem, word ? word : "");
    exit(2);
}

static int signal_of(const char *name) {
    static const char *const names[] = {"HUP", "INT", "QUIT", "TERM", "USR1", "USR2", "WINCH"};
    static const int numbers[] = {SIGHUP, SIGINT, SIGQUIT, SIGTERM, SIGUSR1, SIGUSR2, SIGWINCH};
    if (!strncmp(name, "SIG", 3))
        name += 3;
    for (size_t at = 0; at < sizeof numbers / sizeof *numbers; at++)
        if (!strcmp(name, names[at]))
            return numbers[at];
    return usage("unknown signal: ", name);
}

static double seconds_of(const char *text) {
    char *end;
    double seconds = strtod(text, &end);
    if (end == text || *end || !(seconds > 0 && seconds <= 86400))
        usage("invalid number of seconds: ", text);
    return seconds;
}

static enum ready ready_of(const char *text) {
    if (!strcmp(text, "accept"))
        return READY_ACCEPT;
    if (!strcmp(text, "notify"))
        return READY_NOTIFY;
    if (strcmp(text, "probe"))
        usage("--ready takes accept, notify or probe, not: ", text);
    return READY_PROBE;
}

static void take_option(int letter, char *value, struct options *options) {
    switch (letter) {
    case 'r': options->ready = ready_of(value); break;
    case 'w': options->ready_within = seconds_of(value); break;
    case 'p': options->probe = value; break;
    case 'i': options->probe_within = seconds_of(value); break;
    case 'l': options->probe_limit = seconds_of(value); break;
    case 's': options->stop = signal_of(value); break;
    case 'f': options->finish = seconds_of(value); break;
    case 'u': options->usr1 = signal_of(value); break;
    case 'b': options->blocking = true; break;
    case 'n': options->no_listen_fds = true; break;
    case 'c': options->is_check = true; break;
    case 'e':
        if (!strchr(value, '='))
            usage("--env takes NAME=VALUE, not: ", value);
        options->settings[options->setting_count++] = value;
        break;
    case 'h': fputs(HELP, stdout); exit(0);
    default: exit(2);
    }
}

void read_options(int count, char **words, struct options *options) {
    static const struct option known[] = {
        {"ready", required_argument, 0, 'r'},
        {"ready-within", required_argument, 0, 'w'},
        {"probe", required_argument, 0, 'p'},
        {"probe-within", required_argument, 0, 'i'},
        {"probe-limit", required_argument, 0, 'l'},
        {"stop", required_argument, 0, 's'},
        {"finish", required_argument, 0, 'f'},
        {"usr1", required_argument, 0, 'u'},
        {"env", required_argument, 0, 'e'},
        {"blocking", no_argument, 0, 'b'},
        {"no-listen-fds", no_argument, 0, 'n'},
        {"help", no_argument, 0, 'h'},
        {"check", no_argument, 0, 'c'},
        {0, 0, 0, 0},
    };
    *options =
        (struct options){.ready_within = 30, .finish = 30, .probe_within = 5, .probe_limit = 30, .stop = SIGTERM};
    options->settings = calloc((size_t)count + 1, sizeof *options->settings);
    if (!options->settings)
        usage("out of memory", 0);
    int letter;
    while ((letter = getopt_long(count, words, "+h", known, 0)) != -1)
        take_option(letter, optarg, options);
    if (optind >= count)
        usage("no PROGRAM", 0);
    if (options->ready == READY_PROBE && !options->probe)
        usage("--ready probe needs --probe PATH", 0);
    if (options->probe && options->probe[0] != '/')
        usage("--probe takes a path that begins with /, not: ", options->probe);
    /* Whether a program waits for connections is seen there, and nowhere else. */
    if (options->ready == READY_ACCEPT && access("/proc/self/fd", R_OK | X_OK))
        usage("--ready accept needs /proc, which is not there; take --ready notify or --ready probe", 0);
    options->command = words + optind;
}

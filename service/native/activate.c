/* prefork-activate [OPTIONS] -- PROGRAM ARGUMENT..
 *
 * A worker of a Prefork master that is another program, which knows nothing of Prefork. It answers the master's lines,
 * fetches the sockets from the keeper, starts the program, says `ready` when the program is, and ends with it. See
 * prefork-activate --help, and docs/WORKERS.md for the lines. */
#define _GNU_SOURCE
#include "ending.h"
#include "gate.h"
#include "probe.h"
#include "program.h"
#include "reason.h"
#include "survival.h"
#include "waiting.h"
#include "worker.h"
#include "version.h"

#include <errno.h>
#include <fcntl.h>
#include <poll.h>
#include <signal.h>
#include <stdio.h>
#include <stdlib.h>
#include <string.h>
#include <sys/prctl.h>
#include <sys/socket.h>
#include <sys/stat.h>
#include <sys/un.h>
#include <sys/wait.h>
#include <unistd.h>

#define LONGEST_LINE 4096
/* The pause between two looks at /proc: a fifth of the time since the start, between these. */
#define SHORT_LOOK 0.002
#define LONG_LOOK 0.1
/* How long the holder may take to end all that the program has started. */
#define HOLDER_SECONDS 10
/* How many answers of 500 or more to the probe say that the program does not become ready. */
#define MOST_WRONG 3

static struct options options;
static struct addresses addresses = {.hold = -1};
static struct waiting waiting;
static struct probe probe;

/* The pipes to the master. */
static int lines, answers;
static char start_number[32];

/* The program: its holder and the socket to it, its process, and what it has said to NOTIFY_SOCKET. */
static pid_t holder, program;
static int line = -1, notified = -1;
static char room[256], notify_path[300], probe_path[300], gate_path[300];
static bool is_shut;
static double begun, next_look;
static bool is_ready, has_notified;

/* How the worker ends: since when it finishes, whether it was told to quit, and whether its master has died meanwhile. */
static double finish_by;
static bool was_told_to_quit, has_survived;

static void say(const char *text) {
    char said[LONGEST_LINE];
    int length = snprintf(said, sizeof said, "%s\n", text);
    /* A master that has gone hears nothing. The end of its lines follows. */
    if (write(answers, said, (size_t)length) < 0 && errno != EPIPE)
        fail("the master cannot be answered: %s", strerror(errno));
}

/* Whether somebody reads the answers. */
static bool has_master(void) {
    struct pollfd watched = {answers, 0, 0};
    return poll(&watched, 1, 0) == 0;
}

/* Moves the pipes away from 0 and 1, where a program reads and prints. */
static void move_pipes(void) {
    /* Whatever else it has inherited is not its own. */
    close_range(FIRST_DESCRIPTOR, ~0U, 0);
    int nothing = open("/dev/null", O_RDONLY | O_CLOEXEC);
    lines = fcntl(0, F_DUPFD_CLOEXEC, FIRST_DESCRIPTOR);
    answers = fcntl(1, F_DUPFD_CLOEXEC, FIRST_DESCRIPTOR);
    if (nothing < 0 || lines < 0 || answers < 0 || dup2(nothing, 0) < 0 || dup2(2, 1) < 0)
        fail("no pipes to a master: %s", strerror(errno));
    close(nothing);
}

/* Kills what is left of the program, and waits for that. The holder does it; what a killed holder leaves becomes a child
 * of this process, which ends it itself, as it does where the holder does not end. */
static void end_program(void) {
    if (line < 0)
        return;
    close(line);
    line = -1;
    has_ended_within(holder, HOLDER_SECONDS);
    kill_all(holder, program);
    program = 0;
    remove_room(room);
}

static void end_worker(int status) {
    end_program();
    if (was_told_to_quit)
        say("gone");
    exit(status);
}

#define END_WRONG(...) (warn_of(__VA_ARGS__), end_worker(1))

/* Makes the folder that only this program has, beside the keeper's socket. */
static void make_room(void) {
    const char *keeper = getenv("PREFORK_KEEPER"), *slash = strrchr(keeper, '/');
    int length = slash ? (int)(slash - keeper) : 0;
    snprintf(room, sizeof room, "%.*s%sworker.XXXXXX", length, keeper, slash ? "/" : "");
    if (length > 70)
        snprintf(room, sizeof room, "/tmp/prefork.XXXXXX");
    if (!mkdtemp(room))
        fail("%s: %s", room, strerror(errno));
    snprintf(notify_path, sizeof notify_path, "%s/notify", room);
    snprintf(probe_path, sizeof probe_path, "%s/probe", room);
    snprintf(gate_path, sizeof gate_path, "%s/gate", room);
}

static void open_notify(void) {
    struct sockaddr_un place = {.sun_family = AF_UNIX};
    snprintf(place.sun_path, sizeof place.sun_path, "%.100s", notify_path);
    notified = socket(AF_UNIX, SOCK_DGRAM | SOCK_CLOEXEC | SOCK_NONBLOCK, 0);
    if (notified < 0 || bind(notified, (struct sockaddr *)&place, sizeof place) < 0)
        fail("%s: %s", notify_path, strerror(errno));
}

static void set_blocking(void) {
    for (int at = 0; at < addresses.count; at++) {
        int flags = fcntl(addresses.of[at].listener, F_GETFL);
        fcntl(addresses.of[at].listener, F_SETFL, flags & ~O_NONBLOCK);
    }
}

static void go(void) {
    if (holder)
        END_WRONG("a second go");
    if (!addresses.count)
        END_WRONG("no address");
    if (!has_master())
        exit(0);
    if (is_known_late())
        END_WRONG("another worker of this version was not ready after %g seconds", options.ready_within);
    make_room();
    if (options.ready == READY_NOTIFY)
        open_notify();
    if (options.probe)
        open_probe(&probe, probe_path, &options);
    arrange_addresses(&addresses);
    if (options.blocking)
        set_blocking();
    begin_waiting(&waiting, &addresses);
    const char *library = options.ready == READY_PROBE ? gate_library() : 0;
    is_shut = library && shut_gate(gate_path, &addresses);
    struct gifts gifts = {&options,
                          &addresses,
                          options.probe ? probe.listener : -1,
                          room,
                          notified >= 0 ? notify_path : 0,
                          options.probe ? probe_path : 0,
                          is_shut ? gate_path : 0,
                          library};
    begun = next_look = now();
    adopt_orphans();
    holder = start_holder(&gifts, &line);
    if (holder < 0)
        fail("no process: %s", strerror(errno));
    if (options.probe)
        close(probe.listener);
    forget_listeners(&addresses);
}

static void stop_with(int number) {
    unsigned char byte = (unsigned char)number;
    if (line >= 0)
        send(line, &byte, 1, MSG_NOSIGNAL);
}

static void finish(void) {
    if (!program)
        end_worker(0);
    finish_by = now() + options.finish;
    /* A holder that was stopped passes no signal on. */
    kill(holder, SIGCONT);
    stop_with(options.stop);
}

static void tick(const char *moment) {
    char answer[LONGEST_LINE];
    if (!start_number[0])
        END_WRONG("a tick before the line worker");
    snprintf(answer, sizeof answer, "beat %.64s %s", moment, start_number);
    /* `late` is no beat: the master starts another worker once too many are missing. */
    say(options.probe && is_ready && !probe.is_well ? "late" : answer);
}

/* Does what a line of the master asks for. */
static void obey(char *text) {
    char word[16] = "", first[257] = "", number[32] = "";
    int count = sscanf(text, "%15s %256s %*s %31s", word, first, number);
    if (!strcmp(word, "worker") && count == 3)
        strcpy(start_number, number);
    else if (!strcmp(word, "listener") && count == 2 && !holder) {
        if (is_of_generation(first))
            take_address(&addresses, first);
    } else if (!strcmp(text, "go"))
        go();
    else if (!strcmp(text, "ping"))
        say("pong");
    else if (!strcmp(word, "tick") && count == 2)
        tick(first);
    else if (!strcmp(text, "usr1"))
        stop_with(options.usr1);
    else if (!strcmp(word, "close") && count == 2) {
        /* The program can't close a socket because somebody says so. It has none that its configuration does not name. */
    } else if (!strcmp(text, "quit")) {
        was_told_to_quit = true;
        finish();
    } else
        END_WRONG("a line that no master says: %.100s", text);
}

static void hear_master(void) {
    static char text[LONGEST_LINE + 1];
    static size_t length;
    ssize_t got = read(lines, text + length, sizeof text - 1 - length);
    if (got < 0 && errno == EINTR)
        return;
    if (got <= 0) {
        has_survived = is_ready && begin_survival();
        if (!has_survived)
            finish();
        return;
    }
    length += (size_t)got;
    char *end;
    while (!finish_by && (end = memchr(text, '\n', length))) {
        *end = 0;
        obey(text);
        length -= (size_t)(end + 1 - text);
        memmove(text, end + 1, length);
    }
    if (length == sizeof text - 1)
        END_WRONG("a line that is too long");
}

static void hear_holder(void) {
    struct message message;
    if (recv(line, &message, sizeof message, 0) != sizeof message)
        END_WRONG("the process that holds %s has ended", options.command[0]);
    if (message.news == NEWS_STARTED)
        program = (pid_t)message.value;
    else if (message.news == NEWS_REFUSED)
        END_WRONG("%s: %s", options.command[0], strerror(message.value));
    else if (finish_by)
        end_worker(0);
    else
        END_WRONG("%s has ended by itself with status %d", options.command[0], message.value);
}

/* What the program tells systemd, as it thinks. */
static void hear_notified(void) {
    char text[4097];
    ssize_t length = recv(notified, text + 1, sizeof text - 2, 0);
    if (length <= 0)
        return;
    text[0] = '\n';
    text[length + 1] = 0;
    const char *found = strstr(text, "\nREADY=1");
    has_notified = has_notified || (found && (found[8] == '\n' || !found[8]));
}

static bool is_program_ready(void) {
    if (options.ready == READY_NOTIFY)
        return has_notified;
    if (options.ready == READY_PROBE)
        return probe.answered > 0;
    if (now() < next_look)
        return false;
    double pause = (now() - begun) / 5;
    next_look = now() + (pause < SHORT_LOOK ? SHORT_LOOK : pause > LONG_LOOK ? LONG_LOOK : pause);
    return is_waited_for(&waiting, program);
}

static void look(void) {
    if (!has_master())
        return;
    if (is_program_ready()) {
        if (is_shut && !open_gate(gate_path))
            END_WRONG("%s: %s", gate_path, strerror(errno));
        is_ready = true;
        say("ready");
        note_ready();
    } else if (options.ready == READY_PROBE && probe.wrong >= MOST_WRONG) {
        END_WRONG("%s answers %s with a status of 500 or more, %d times", options.command[0], options.probe, MOST_WRONG);
    } else if (now() - begun > options.ready_within) {
        note_late();
        const char *unseen = options.ready == READY_ACCEPT ? unseen_address(&waiting, &addresses) : "";
        END_WRONG("%s is not ready after %g seconds%s%s", options.command[0], options.ready_within,
                  *unseen ? ": it does not accept at " : "", unseen);
    }
}

/* What time brings: the program is ready, answers no more, or has not finished. */
static void go_on(void) {
    if (finish_by) {
        if (now() > finish_by) {
            warn_of("%s has not finished after %g seconds, and is killed", options.command[0], options.finish);
            end_worker(0);
        }
        return;
    }
    if (!program)
        return;
    if (has_survived && is_survival_over(options.finish)) {
        finish();
        return;
    }
    if (options.probe)
        go_on_probing(&probe);
    if (!is_ready)
        look();
    if (options.probe && probe.answered > 0 && now() - probe.answered > options.probe_limit)
        END_WRONG("%s has not answered %s for %g seconds", options.command[0], options.probe, options.probe_limit);
}

/* How long until the program is looked at, or its time to be ready is over. */
static double until_look(double seconds) {
    double left = begun + options.ready_within - now();
    if (options.ready == READY_ACCEPT && next_look - now() < left)
        left = next_look - now();
    return left < seconds ? left : seconds;
}

static int pause_of(void) {
    double seconds = 3600;
    if (finish_by)
        seconds = finish_by - now();
    else if (program && options.probe)
        seconds = until_probe(&probe);
    if (program && !finish_by && !is_ready)
        seconds = until_look(seconds);
    if (has_survived && !finish_by && seconds > SURVIVAL_LOOK)
        seconds = SURVIVAL_LOOK;
    return seconds > 0 ? (int)(seconds * 1000) + 1 : 0;
}

static void turn(void) {
    /* A program that is being started is awaited: the next line may be `quit`, which wants its number. */
    bool is_starting = line >= 0 && !program;
    struct pollfd watched[] = {{line, POLLIN, 0},
                               {notified, POLLIN, 0},
                               {options.probe && program ? probe.connection : -1, POLLIN, 0},
                               {finish_by || is_starting || has_survived ? -1 : lines, POLLIN, 0}};
    if (poll(watched, 4, pause_of()) < 0 && errno != EINTR)
        fail("poll: %s", strerror(errno));
    if (watched[0].revents)
        hear_holder();
    if (watched[1].revents)
        hear_notified();
    go_on();
    if (watched[3].revents)
        hear_master();
}

/* What `ps -o comm` shows: the generation and the number of the worker. */
static void show_name(void) {
    char title[16];
    const char *name = getenv("PREFORK_WORKER");
    snprintf(title, sizeof title, "worker %.8s", name ? name : "");
    prctl(PR_SET_NAME, title, 0, 0, 0);
}

int main(int count, char **words) {
    tell_version(count, words, "prefork-activate");
    read_options(count, words, &options);
    if (options.is_check)
        return 0;
    move_pipes();
    signal(SIGPIPE, SIG_IGN);
    show_name();
    for (;;)
        turn();
}

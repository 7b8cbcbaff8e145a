#define _GNU_SOURCE
#include "probe.h"

#include <errno.h>
#include <stdio.h>
#include <stdlib.h>
#include <string.h>
#include <sys/socket.h>
#include <sys/un.h>
#include <unistd.h>

/* The pause before the next request, before the first answer and after it. */
#define FIRST_PAUSE 0.1
#define PAUSE 1.0

static struct sockaddr_un place_of(const char *path) {
    struct sockaddr_un place = {.sun_family = AF_UNIX};
    if (strlen(path) >= sizeof place.sun_path)
        fail("the path of the probe's socket is too long: %s", path);
    strcpy(place.sun_path, path);
    return place;
}

void open_probe(struct probe *probe, const char *path, const struct options *options) {
    struct sockaddr_un place = place_of(path);
    *probe = (struct probe){.path = options->probe, .place = path, .within = options->probe_within, .connection = -1};
    probe->listener = socket(AF_UNIX, SOCK_STREAM | SOCK_CLOEXEC, 0);
    if (probe->listener < 0 || bind(probe->listener, (struct sockaddr *)&place, sizeof place) < 0 ||
        listen(probe->listener, 64) < 0)
        fail("%s: %s", path, strerror(errno));
}

static void end_request(struct probe *probe) {
    close(probe->connection);
    probe->connection = -1;
    probe->due = now() + (probe->answered > 0 ? PAUSE : FIRST_PAUSE);
}

static void ask(struct probe *probe) {
    char request[600];
    struct sockaddr_un place = place_of(probe->place);
    int length = snprintf(request, sizeof request,
                          "GET %.500s HTTP/1.1\r\nHost: localhost\r\nX-Forwarded-Proto: https\r\nConnection: close\r\n\r\n",
                          probe->path);
    probe->asked = now();
    probe->length = 0;
    probe->is_told = false;
    probe->connection = socket(AF_UNIX, SOCK_STREAM | SOCK_CLOEXEC | SOCK_NONBLOCK, 0);
    if (probe->connection >= 0 && !connect(probe->connection, (struct sockaddr *)&place, sizeof place) &&
        send(probe->connection, request, (size_t)length, MSG_NOSIGNAL) == length)
        return;
    probe->is_well = false;
    end_request(probe);
}

/* Looks at the first bytes of an answer: HTTP/1.x with a status from 100 to 499. */
static void judge(struct probe *probe) {
    if (probe->is_told || probe->length < 12)
        return;
    probe->is_told = true;
    bool is_answer = !memcmp(probe->head, "HTTP/1.", 7) && probe->head[8] == ' ' && probe->head[9] >= '1';
    probe->is_well = is_answer && probe->head[9] < '5';
    probe->wrong = is_answer && !probe->is_well ? probe->wrong + 1 : 0;
    if (probe->is_well)
        probe->answered = now();
}

static void read_answer(struct probe *probe) {
    char rest[4096];
    for (;;) {
        ssize_t got = recv(probe->connection, rest, sizeof rest, 0);
        if (got < 0 && errno == EAGAIN)
            return;
        if (got <= 0) {
            probe->is_well = probe->is_well && probe->is_told;
            end_request(probe);
            return;
        }
        for (ssize_t at = 0; at < got && probe->length < sizeof probe->head; at++)
            probe->head[probe->length++] = rest[at];
        judge(probe);
    }
}

void go_on_probing(struct probe *probe) {
    if (probe->connection < 0 && now() >= probe->due)
        ask(probe);
    if (probe->connection >= 0)
        read_answer(probe);
    if (probe->connection >= 0 && now() - probe->asked > probe->within) {
        probe->is_well = probe->is_well && probe->is_told;
        end_request(probe);
    }
}

double until_probe(const struct probe *probe) {
    double due = probe->connection < 0 ? probe->due : probe->asked + probe->within;
    return due > now() ? due - now() : 0;
}

/* page [NUMBER..]: a small server for tests. It takes the numbers of its listening sockets as arguments, or without any
 * by LISTEN_FDS, and answers each request with a line: `version V process P`, V from the environment (VERSION), and the
 * status from there too (CODE). /slow takes a second, /stuck for ever.
 * SIGTERM finishes: it accepts no more, answers what has begun, and closes kept connections after their next answer, or
 * once they have been idle for twenty seconds: longer than a client may halt. */
#define _GNU_SOURCE
#include <errno.h>
#include <poll.h>
#include <signal.h>
#include <stdbool.h>
#include <stdio.h>
#include <stdlib.h>
#include <string.h>
#include <sys/socket.h>
#include <time.h>
#include <unistd.h>

#define MOST 256
#define IDLE_SECONDS 20

struct client {
    int socket;
    size_t length;
    time_t since;
    char text[4096];
};

static struct pollfd watched[MOST];
static struct client clients[MOST];
static int listeners, count;
static volatile sig_atomic_t is_finishing;

static void on_stop(int number) {
    (void)number;
    is_finishing = 1;
}

static time_t now(void) {
    struct timespec time;
    clock_gettime(CLOCK_MONOTONIC, &time);
    return time.tv_sec;
}

static void admit(int listener) {
    int socket = count < MOST ? accept4(listener, 0, 0, SOCK_CLOEXEC) : -1;
    if (socket < 0)
        return;
    watched[count] = (struct pollfd){socket, POLLIN, 0};
    clients[count] = (struct client){.socket = socket, .since = now()};
    count++;
}

static void leave(int at) {
    close(clients[at].socket);
    count--;
    watched[at] = watched[count];
    clients[at] = clients[count];
}

/* Ends the own side first, and reads away what still comes, so that no reset overtakes the answer. */
static void see_off(int at) {
    char rest[4096];
    shutdown(clients[at].socket, SHUT_WR);
    struct pollfd last = {clients[at].socket, POLLIN, 0};
    while (poll(&last, 1, 1000) > 0 && read(clients[at].socket, rest, sizeof rest) > 0)
        ;
    leave(at);
}

static void answer(int at) {
    char body[128], text[512];
    struct client *client = &clients[at];
    bool is_kept = !is_finishing && !strcasestr(client->text, "\r\nconnection: close");
    if (!strncmp(client->text, "GET /slow ", 10))
        sleep(1);
    if (!strncmp(client->text, "GET /stuck ", 11))
        for (;;)
            pause();
    int size = snprintf(body, sizeof body, "version %s process %d\n", getenv("VERSION") ? getenv("VERSION") : "1",
                        (int)getpid());
    int length =
        snprintf(text, sizeof text,
                 "HTTP/1.1 %s Told\r\nContent-Type: text/plain\r\nContent-Length: %d\r\nConnection: %s\r\n\r\n%s",
                 getenv("CODE") ? getenv("CODE") : "200", size, is_kept ? "keep-alive" : "close", body);
    client->length = 0;
    client->since = now();
    if (send(client->socket, text, (size_t)length, MSG_NOSIGNAL) != length)
        leave(at);
    else if (!is_kept)
        see_off(at);
}

static void hear(int at) {
    struct client *client = &clients[at];
    ssize_t got = read(client->socket, client->text + client->length, sizeof client->text - 1 - client->length);
    if (got <= 0) {
        leave(at);
        return;
    }
    client->length += (size_t)got;
    client->text[client->length] = 0;
    if (strstr(client->text, "\r\n\r\n"))
        answer(at);
}

static void turn(void) {
    int first = is_finishing ? listeners : 0;
    if (poll(watched + first, (nfds_t)(count - first), is_finishing ? 100 : 1000) < 0 && errno != EINTR)
        exit(1);
    for (int at = count - 1; at >= listeners; at--)
        if (watched[at].revents)
            hear(at);
        else if (is_finishing && now() - clients[at].since > IDLE_SECONDS)
            leave(at);
    for (int at = first; at < listeners; at++)
        if (watched[at].revents)
            admit(watched[at].fd);
}

int main(int words, char **word) {
    const char *given = words == 1 ? getenv("LISTEN_FDS") : 0;
    signal(SIGTERM, on_stop);
    listeners = count = given ? atoi(given) : words - 1;
    for (int at = 0; at < listeners && at < 64; at++)
        watched[at] = (struct pollfd){given ? 3 + at : atoi(word[at + 1]), POLLIN, 0};
    while (!is_finishing || count > listeners)
        turn();
    return 0;
}

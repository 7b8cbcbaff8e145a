/* The listening sockets of the keeper. */
#define _GNU_SOURCE
#include "ask.h"
#include "worker.h"

#include <errno.h>
#include <stdio.h>
#include <stdlib.h>
#include <string.h>
#include <sys/socket.h>
#include <unistd.h>

static int keeper_connection(void) {
    const char *path = getenv("PREFORK_KEEPER");
    if (!path)
        fail("PREFORK_KEEPER does not name the keeper's socket");
    int connection = connect_keeper(path);
    if (connection < 0)
        fail("no keeper at %s: %s", path, strerror(errno));
    return connection;
}

/* Asks for an address on the connection that holds the others. If that has ended, with the keeper or since nothing was
 * said on it for too long, it asks once more on another one: the others stay as they are. */
static void ask(struct addresses *addresses, const char *text, char *answer, size_t room, int *listener) {
    if (addresses->hold < 0)
        addresses->hold = keeper_connection();
    errno = 0;
    ssize_t length = ask_keeper(addresses->hold, text, answer, room, listener);
    if (length <= 0 && errno != ETIMEDOUT) {
        close(addresses->hold);
        addresses->hold = keeper_connection();
        length = ask_keeper(addresses->hold, text, answer, room, listener);
    }
    if (length < 0)
        fail("%s: the keeper %s", text, errno == ETIMEDOUT ? "does not answer" : "has gone");
}

/* The addresses of the generation's configuration, in its order, each with a space before and after it; the empty text
 * where nobody has said. */
static const char *of_generation(void) {
    static char text[MOST_LISTENERS * 256];
    const char *said = getenv("PREFORK_ADDRESSES");
    if (said && *said && !*text)
        snprintf(text, sizeof text, " %s ", said);
    return text;
}

/* Where an address has its place among those of the generation, or null. */
static const char *place_of(const char *text) {
    char word[260];
    snprintf(word, sizeof word, " %s ", text);
    return strstr(of_generation(), word);
}

bool is_of_generation(const char *text) {
    return !*of_generation() || place_of(text);
}

void arrange_addresses(struct addresses *addresses) {
    for (int from = 1; *of_generation() && from < addresses->count; from++)
        for (int at = from; at > 0 && place_of(addresses->of[at].text) < place_of(addresses->of[at - 1].text); at--) {
            struct address moved = addresses->of[at];
            addresses->of[at] = addresses->of[at - 1];
            addresses->of[at - 1] = moved;
        }
}

void forget_listeners(struct addresses *addresses) {
    for (int at = 0; at < addresses->count; at++) {
        if (addresses->of[at].listener >= 0)
            close(addresses->of[at].listener);
        addresses->of[at].listener = -1;
    }
}

void take_address(struct addresses *addresses, const char *text) {
    char answer[256];
    if (addresses->count == MOST_LISTENERS)
        fail("more than %d addresses", MOST_LISTENERS);
    struct address *address = &addresses->of[addresses->count];
    ask(addresses, text, answer, sizeof answer, &address->listener);
    if (strcmp(answer, "ok") || address->listener < 0)
        fail("%s: %s", text, !strncmp(answer, "no ", 3) ? answer + 3 : "the keeper has gone");
    address->text = strdup(text);
    if (!address->text)
        fail("out of memory");
    addresses->count++;
}

/* Questions to the keeper. */
#define _GNU_SOURCE
#include "ask.h"

#include <errno.h>
#include <poll.h>
#include <string.h>
#include <sys/socket.h>
#include <sys/un.h>
#include <unistd.h>

/* How long the keeper may take to answer. */
#define KEEPER_MILLISECONDS 10000

int connect_keeper(const char *path) {
    struct sockaddr_un place = {.sun_family = AF_UNIX};
    if (strlen(path) >= sizeof place.sun_path) {
        errno = ENAMETOOLONG;
        return -1;
    }
    strcpy(place.sun_path, path);
    int connection = socket(AF_UNIX, SOCK_SEQPACKET | SOCK_CLOEXEC, 0);
    if (connection < 0 || connect(connection, (struct sockaddr *)&place, sizeof place) == 0)
        return connection;
    int fault = errno;
    close(connection);
    errno = fault;
    return -1;
}

/* Receives the answer and the descriptor that comes with it; the length of the answer. */
static ssize_t receive(int connection, char *text, size_t room, int *given) {
    union {
        struct cmsghdr header;
        char bytes[CMSG_SPACE(sizeof(int))];
    } control;
    struct iovec piece = {text, room};
    struct msghdr message = {
        .msg_iov = &piece, .msg_iovlen = 1, .msg_control = &control, .msg_controllen = sizeof control};
    ssize_t length = recvmsg(connection, &message, MSG_CMSG_CLOEXEC);
    struct cmsghdr *header = length > 0 ? CMSG_FIRSTHDR(&message) : 0;
    if (header && header->cmsg_level == SOL_SOCKET && header->cmsg_type == SCM_RIGHTS)
        memcpy(given, CMSG_DATA(header), sizeof *given);
    return length;
}

ssize_t ask_keeper(int connection, const char *text, char *answer, size_t room, int *given) {
    struct pollfd waited = {connection, POLLIN, 0};
    *given = -1;
    if (send(connection, text, strlen(text), MSG_NOSIGNAL) < 0)
        return -1;
    if (poll(&waited, 1, KEEPER_MILLISECONDS) <= 0) {
        errno = ETIMEDOUT;
        return -1;
    }
    ssize_t length = receive(connection, answer, room - 1, given);
    answer[length > 0 ? length : 0] = 0;
    return length;
}

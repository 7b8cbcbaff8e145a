"""Listening sockets that are open: what tells them from others, and how they refuse new connections."""
import os
import socket
from collections.abc import Sequence

# Of a door.
QUEUE = 1024
# An option of Linux that the module socket does not name, and the number of an interface that no system has.
SO_BINDTOIFINDEX, NO_INTERFACE = 62, 2**31 - 1


def is_tcp(one: socket.socket) -> bool:
    return one.family in (socket.AF_INET, socket.AF_INET6)


def seal(one: socket.socket) -> None:
    """Lets a TCP socket take no new connection: they are refused. Those that wait in its queue stay, and are accepted.

    The system looks for a listening socket that is not bound to another interface than that of the connection. This holds
    for each process that has the socket. The address can be opened anew beside it. An old system refuses the options:
    the socket is closed all the same, by each process that has it."""
    if not is_tcp(one):
        return
    try:
        one.setsockopt(socket.SOL_SOCKET, SO_BINDTOIFINDEX, NO_INTERFACE)
        one.setsockopt(socket.SOL_SOCKET, socket.SO_REUSEPORT, 1)
    except OSError:
        pass


def given_sockets(numbers: Sequence[int]) -> list[socket.socket]:
    """The sockets of descriptors that another process has given. If one can't be taken, all are closed: who waits for an
    answer there would wait for ever. Raises OSError."""
    found: list[socket.socket] = []
    try:
        for number in numbers:
            found.append(socket.socket(fileno=number))
        return found
    except OSError:
        for number in [*(one.detach() for one in found), *numbers[len(found) :]]:
            os.close(number)
        raise


def file_of(address: str) -> tuple[int, int] | None:
    """What tells the file of a Unix socket from all others; nothing if it is not there."""
    try:
        found = os.stat(address) if address.startswith("/") else None
    except OSError:
        return None
    return (found.st_dev, found.st_ino) if found else None


def inode_of(one: socket.socket) -> int:
    """What tells a socket from all others."""
    return os.fstat(one.fileno()).st_ino

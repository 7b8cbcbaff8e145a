"""How listening sockets are opened, what is wanted of them, and whether an address is free."""
import errno
import os
import socket
from typing import Any, NamedTuple

from .addresses import endpoint_of, socket_for
from .socket_files import has_listener, make_place

# As long as the system allows, which bounds what is asked for.
MOST_QUEUE = 65535
# How long a connection without a byte is held back; the system counts in its own steps.
DEFER_SECONDS = 1


class Wanted(NamedTuple):
    """What is wanted of a listening socket. What is None is as usual: the file of a Unix socket is as umask and user make it."""

    backlog: int | None = None
    defer_accept: bool | None = None
    owner: int | None = None
    group: int | None = None
    mode: int | None = None

    def over(self, usual: "Wanted") -> "Wanted":
        """With what is usual in the place of what is not said."""
        return usual._replace(**self.told())

    def told(self) -> dict[str, Any]:
        """What is said, by its names."""
        return {key: value for key, value in self._asdict().items() if value is not None}


def listening(address: str, wanted: Wanted = Wanted(), is_again: bool = False) -> socket.socket:
    """A socket that listens at an address. Where the address is opened again, a socket that was sealed may still be open:
    in a worker that finishes."""
    place = endpoint_of(address)
    is_path = place == address
    if is_path:
        make_place(address)
    opened = socket_for(address)
    try:
        opened.setsockopt(socket.SOL_SOCKET, socket.SO_REUSEADDR, 1)
        if is_again and not is_path:
            opened.setsockopt(socket.SOL_SOCKET, socket.SO_REUSEPORT, 1)
        opened.bind(place)
        if is_path:
            give_file(address, wanted)
        elif wanted.defer_accept:
            opened.setsockopt(socket.IPPROTO_TCP, socket.TCP_DEFER_ACCEPT, DEFER_SECONDS)
        opened.listen(wanted.backlog or MOST_QUEUE)
        if is_again and not is_path:
            opened.setsockopt(socket.SOL_SOCKET, socket.SO_REUSEPORT, 0)
    except OSError:
        opened.close()
        raise
    # All workers are woken by a connection, and one of them gets it: the others must not wait for the next one.
    opened.setblocking(False)
    return opened


def give_file(path: str, wanted: Wanted) -> None:
    """Gives the file of a Unix socket its owner, group and mode, or removes it. Nobody can connect before it listens."""
    try:
        if wanted.owner is not None or wanted.group is not None:
            os.chown(path, -1 if wanted.owner is None else wanted.owner, -1 if wanted.group is None else wanted.group)
        if wanted.mode is not None:
            os.chmod(path, wanted.mode)
    except OSError:
        os.unlink(path)
        raise


def is_taken(address: str) -> bool:
    """Whether somebody listens at an address."""
    if address.startswith("/"):
        return has_listener(address)
    try:
        with socket_for(address) as probe:
            probe.setsockopt(socket.SOL_SOCKET, socket.SO_REUSEADDR, 1)
            probe.bind(endpoint_of(address))
    except OSError as fault:
        return fault.errno == errno.EADDRINUSE
    except (OverflowError, ValueError):
        # The keeper says what is wrong with it.
        pass
    return False

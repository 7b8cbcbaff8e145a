"""The listening sockets that are there before a service starts: systemd's, and those of a service that was killed. Its keeper
keeps these as long as workers serve on, and gives them to the next start, so that no connection is refused between the two.
Where there is no such keeper those workers make way."""
import errno
import os
import pathlib
import socket
import time
from collections.abc import Collection

from .addresses import text_of
from .folder import Folder, say
from .leaving import Leaving
from .opening import is_taken
from .packets import LONGEST_ADDRESS, Packet
from .sockets import seal, given_sockets
from .surviving import Survivors, counted

# How long that keeper may take to answer, and how long it may take it to see that its service has ended.
INHERIT_SECONDS, SEEN_SECONDS, INHERIT_PAUSE_SECONDS = 5.0, 1.0, 0.02
# The first descriptor that systemd gives.
FIRST = 3
# How long workers of an earlier service may take to close their sockets, and how long a keeper that ends.
WAY_SECONDS, CLOSE_SECONDS = 10.0, 1.0


class Heritage:
    """What the keeper of a killed service has given, and the connection to it. It stays until it is told that the sockets
    are kept: a start that fails has taken nothing from it."""

    def __init__(self, connection: socket.socket | None = None, sockets: dict[str, socket.socket] | None = None):
        self.connection, self.sockets = connection, sockets or {}

    def take(self, addresses: Collection[str], others: Collection[str]) -> dict[str, socket.socket]:
        """Those at addresses for which there is no other socket. The rest is closed, and an address that is not among these
        takes no new connection: workers that serve on may still have its socket."""
        for address in set(self.sockets) - (set(addresses) - set(others)):
            if address not in addresses:
                seal(self.sockets[address])
            self.sockets.pop(address).close()
        return self.sockets

    def descriptors(self) -> list[int]:
        """What the core of the service needs of it."""
        return [one.fileno() for one in [*self.sockets.values(), *([self.connection] if self.connection else [])]]

    def heir(self) -> int:
        """The connection by which the core tells that it keeps them."""
        return self.connection.fileno() if self.connection else -1


def heritage_at(door: pathlib.Path) -> Heritage:
    """What a keeper at this door has, if its service was killed."""
    deadline = time.monotonic() + SEEN_SECONDS
    while True:
        connection = socket.socket(socket.AF_UNIX, socket.SOCK_SEQPACKET)
        connection.settimeout(INHERIT_SECONDS)
        try:
            connection.connect(str(door))
            connection.send(Packet.INHERITS.encode())
            found = received(connection)
        except TimeoutError:
            say("the keeper of an earlier service does not answer")
            connection.close()
            return Heritage()
        except OSError:
            # There is none.
            connection.close()
            return Heritage()
        if found is not None:
            return Heritage(connection, found)
        connection.close()
        if time.monotonic() > deadline:
            return Heritage()
        # It has not seen yet that its service has ended.
        time.sleep(INHERIT_PAUSE_SECONDS)


def received(connection: socket.socket) -> dict[str, socket.socket] | None:
    """The sockets that a keeper gives; nothing if it gives none. Raises OSError."""
    found: dict[str, socket.socket] = {}
    try:
        while True:
            said, given = socket.recv_fds(connection, LONGEST_ADDRESS + 1, 1)[:2]
            kind, address = said.decode()[:1], said.decode()[1:]
            if kind == Packet.ENDS:
                return found
            if kind != Packet.OPENED or not given:
                break
            found[address] = given_sockets(given)[0]
    except OSError:
        close_all(found)
        raise
    close_all(found)
    return None


def close_all(sockets: dict[str, socket.socket]) -> None:
    for one in sockets.values():
        one.close()


def make_way(folder: Folder, addresses: list[str]) -> None:
    """Lets those of an earlier service finish that listen at addresses for which this one has no socket."""
    if not (taken := [address for address in addresses if is_taken(address)]):
        return
    earlier = Survivors(folder.survivors, Leaving(folder.path, 0))
    if count := earlier.release():
        say(f"{counted(count)} of an earlier service: told to finish, since they have {' '.join(taken)}")
    # (the keeper of one that has just ended may still close its sockets)
    deadline = time.monotonic() + (WAY_SECONDS if count else CLOSE_SECONDS)
    while any(map(is_taken, taken)) and time.monotonic() < deadline:
        time.sleep(INHERIT_PAUSE_SECONDS)


def of_systemd() -> dict[str, socket.socket]:
    """The listening sockets that systemd has for this process, by their addresses."""
    count = os.environ.pop("LISTEN_FDS", "0")
    is_ours = os.environ.pop("LISTEN_PID", "") == str(os.getpid())
    os.environ.pop("LISTEN_FDNAMES", None)
    found: dict[str, socket.socket] = {}
    if not is_ours or not count.isdigit():
        return found
    for number in range(FIRST, FIRST + int(count)):
        try:
            one = socket.socket(fileno=number)
        except OSError as fault:
            say(f"descriptor {number} of systemd is not used: {fault.strerror}")
            if fault.errno == errno.EBADF:
                break
            continue
        one.set_inheritable(False)
        place = one.getsockname()
        is_new = one.getsockopt(socket.SOL_SOCKET, socket.SO_ACCEPTCONN)
        address = text_of(place)
        if takes_both(one):
            say(f"the socket {address} of systemd takes IPv4 too, and is not used: set BindIPv6Only=ipv6-only")
            one.close()
            continue
        if not is_new or address in found:
            one.close()
            continue
        one.setblocking(False)
        found[address] = one
    return found


def takes_both(one: socket.socket) -> bool:
    """Whether a socket for IPv6 serves IPv4 too: no address of a configuration does."""
    return one.family == socket.AF_INET6 and not one.getsockopt(socket.IPPROTO_IPV6, socket.IPV6_V6ONLY)

"""How a process asks the keeper of a service for listening sockets, and holds them."""
import os
import socket

from .sockets import given_sockets

KEEPER_SECONDS = 10.0


class Unfit(Exception):
    """The worker cannot serve. The text is for people, on standard error."""


class Hold:
    """The connection to the keeper that holds addresses. It is made for the first one."""

    def __init__(self, seconds: float = KEEPER_SECONDS):
        self.seconds = seconds
        self.connection: socket.socket | None = None

    def take(self, address: str) -> socket.socket:
        """The listening socket of an address, which is held from then on."""
        said, given = self.ask(address)
        if not said:
            # The keeper has ended, and another one is there or comes; or nothing was said on the connection for too
            # long. What was taken before stays as it is.
            self.close()
            said, given = self.ask(address)
        if said != b"ok" or not given:
            raise Unfit(f"{address}: {said.decode('latin-1')[3:] or 'the keeper has gone'}")
        return given_sockets(given)[0]

    def ask(self, address: str) -> tuple[bytes, list[int]]:
        """What the keeper answers; nothing if it has ended."""
        try:
            if not self.connection:
                self.connection = connected(self.seconds)
            self.connection.send(address.encode())
            said, given, _, _ = socket.recv_fds(self.connection, 200, 1)
        except (BrokenPipeError, ConnectionResetError):
            return b"", []
        except OSError as fault:
            raise Unfit(f"{address}: no keeper: {fault}") from fault
        return said, given

    def give_up(self, address: str) -> None:
        """Holds an address no longer."""
        try:
            if self.connection:
                self.connection.send(f"-{address}".encode())
        except OSError:
            # A keeper that has ended holds nothing.
            pass

    def close(self) -> None:
        if self.connection:
            self.connection.close()
        self.connection = None


def connected(seconds: float) -> socket.socket:
    """A connection to the keeper. Raises OSError."""
    place = os.environ.get("PREFORK_KEEPER")
    if not place:
        raise Unfit("PREFORK_KEEPER does not name the keeper's socket")
    connection = socket.socket(socket.AF_UNIX, socket.SOCK_SEQPACKET)
    connection.settimeout(seconds)
    try:
        connection.connect(place)
    except OSError:
        connection.close()
        raise
    return connection

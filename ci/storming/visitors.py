"""Slow and hostile visitors of what a service opens: its page, its metrics, its words, its keeper, and its listeners."""
import contextlib
import random
import socket
import threading
from collections.abc import Callable, Iterable
from typing import NamedTuple

# How long a visitor stays at most, and how many there are at a time of each kind.
STAY_SECONDS, MOST = 4.0, 24
GARBAGE = (b"\0" * 64, b"GET\r\n\r\n", b"GET / HTTP/9.9\r\n\r\n", b"\x16\x03\x01\x02\x00\x01\x00", b"POST / HTTP/1.1\r\nContent-Length: 99999999\r\n\r\n",
           b"GET / HTTP/1.1\r\nHost: x\r\nHost: y\r\n\r\n", b"x" * 9000, b"HUPP\n", b"status", b"USR2 attendd\n", b"\xff\xfe\n", b"go\n" * 9)


class Place(NamedTuple):
    """Where visitors come, what a good one says, and whether slow ones come too."""

    kind: int
    address: str | tuple[str, int]
    asks: bytes
    is_slow: bool = True


def tcp(address: str, asks: bytes, is_slow: bool = True) -> Place:
    host, _, port = address.rpartition(":")
    return Place(socket.SOCK_STREAM, (host, int(port)), asks, is_slow)


def connected(place: Place) -> socket.socket:
    client = socket.socket(socket.AF_INET if isinstance(place.address, tuple) else socket.AF_UNIX, place.kind)
    try:
        client.settimeout(STAY_SECONDS)
        client.connect(place.address)
    except BaseException:
        client.close()
        raise
    return client


class Visitors:
    """Visitors of some places, until the storm is over."""

    def __init__(self, places: Callable[[], Iterable[Place]], seed: int):
        self.places, self.chance, self.is_over = places, random.Random(seed), threading.Event()
        self.count = 0
        self.thread = threading.Thread(target=self.run)

    def __enter__(self) -> "Visitors":
        self.thread.start()
        return self

    def __exit__(self, *_: object) -> None:
        self.is_over.set()
        self.thread.join()

    def run(self) -> None:
        while not self.is_over.wait(self.chance.uniform(0.1, 1.0)):
            for place in self.places():
                with contextlib.suppress(OSError):
                    self.crowd(place)

    def crowd(self, place: Place) -> None:
        """Several visitors of a place at a time, each of which does something else."""
        kinds = [self.says_garbage, self.leaves_at_once, *([self.says_little, self.reads_nothing, self.says_nothing] if place.is_slow else [])]
        with contextlib.ExitStack() as crowd:
            for _ in range(self.chance.randint(1, MOST)):
                client = crowd.enter_context(connected(place))
                self.count += 1
                with contextlib.suppress(OSError):
                    self.chance.choice(kinds)(client, place)
            self.is_over.wait(self.chance.uniform(0, STAY_SECONDS / 2))

    def says_nothing(self, client: socket.socket, place: Place) -> None:
        pass

    def says_garbage(self, client: socket.socket, place: Place) -> None:
        client.send(self.chance.choice(GARBAGE))

    def leaves_at_once(self, client: socket.socket, place: Place) -> None:
        client.setsockopt(socket.SOL_SOCKET, socket.SO_LINGER, b"\1\0\0\0\0\0\0\0")
        client.close()

    def says_little(self, client: socket.socket, place: Place) -> None:
        client.send(place.asks[: self.chance.randint(1, 3)])

    def reads_nothing(self, client: socket.socket, place: Place) -> None:
        client.setsockopt(socket.SOL_SOCKET, socket.SO_RCVBUF, 1024)
        client.send(place.asks)

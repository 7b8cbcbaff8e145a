"""Standard error, as a service has it for years: it may be full, closed, or read by nobody, and nothing raises or blocks.

What can't be written waits, up to a bound. What has no room is dropped, and the number of its bytes is told once there is
room again.
"""
import atexit
import contextlib
import io
import os
import select
import socket
import stat
import sys
import time
from collections.abc import Callable

MOST_ERRORS_WAITING = 1 << 16
# A pipe for which poll finds room takes this number of bytes at once.
MOST_AT_ONCE = 4096
# How long what waits is tried again at the end.
DRAIN_SECONDS, ERRORS_PAUSE_SECONDS = 1.0, 0.05
STANDARD_ERROR = 2


class Errors(io.TextIOBase):
    """A text stream that writes to a descriptor, whatever that does."""

    def __init__(self, number: int = STANDARD_ERROR):
        self.number, self.put = number, writer_of(number)
        self.waiting, self.dropped = bytearray(), 0
        self.buffer = Bytes(self)

    @property
    def encoding(self) -> str:  # type: ignore[override]
        return "utf-8"

    def fileno(self) -> int:
        return self.number

    def isatty(self) -> bool:
        return os.isatty(self.number)

    def writable(self) -> bool:
        return True

    def write(self, text: str) -> int:
        self.add(text.encode("utf-8", "backslashreplace"))
        return len(text)

    def add(self, data: bytes) -> None:
        if self.dropped or len(self.waiting) + len(data) > MOST_ERRORS_WAITING:
            self.flush()
        if self.dropped or len(self.waiting) + len(data) > MOST_ERRORS_WAITING:
            self.dropped += len(data)
            return
        self.waiting += data
        if b"\n" in data:
            self.flush()

    def flush(self) -> None:
        """Writes what waits, as far as that can be written now."""
        self.empty()
        if self.dropped and not self.waiting:
            self.waiting += f"prefork: {self.dropped} bytes of messages are lost, which standard error did not take\n".encode()
            self.dropped = 0
            self.empty()

    def empty(self) -> None:
        with contextlib.suppress(OSError):
            while self.waiting:
                # (a write that gives 0 has no room)
                written = self.put(bytes(self.waiting))
                if not written:
                    return
                del self.waiting[:written]

    def drain(self) -> None:
        """At the end: waits a moment for a reader that is slow."""
        deadline = time.monotonic() + DRAIN_SECONDS
        self.flush()
        while self.waiting and time.monotonic() < deadline:
            time.sleep(ERRORS_PAUSE_SECONDS)
            self.flush()


class Bytes(io.RawIOBase):
    """The same stream for bytes."""

    def __init__(self, errors: Errors):
        self.errors = errors

    def writable(self) -> bool:
        return True

    def write(self, data: bytes) -> int:  # type: ignore[override]
        self.errors.add(bytes(data))
        return len(data)

    def flush(self) -> None:
        if not self.closed:
            self.errors.flush()


def writer_of(number: int) -> Callable[[bytes], int]:
    """What writes bytes without blocking, and gives how many. Others have the same description of the file, and expect
    that it blocks: it stays as it is."""
    kind = os.fstat(number).st_mode
    if stat.S_ISSOCK(kind):
        one = socket.socket(fileno=os.dup(number))
        return lambda data: one.send(data, socket.MSG_DONTWAIT | socket.MSG_NOSIGNAL)
    if stat.S_ISREG(kind):
        return lambda data: os.write(number, data)
    try:
        own = os.open(f"/proc/self/fd/{number}", os.O_WRONLY | os.O_NONBLOCK | os.O_NOCTTY | os.O_CLOEXEC)
        return lambda data: os.write(own, data)
    except OSError:
        # There is no /proc, or it was opened by another user.
        return lambda data: polled(number, data)


def polled(number: int, data: bytes) -> int:
    watched = select.poll()
    watched.register(number, select.POLLOUT)
    return os.write(number, data[:MOST_AT_ONCE]) if watched.poll(0) else 0


def take_standard() -> None:
    """Opens the standard descriptors that are closed, so that no other file gets their numbers, and takes care of standard
    error. Done before anything else is opened."""
    for number in range(STANDARD_ERROR + 1):
        try:
            os.fstat(number)
        except OSError:
            os.open(os.devnull, os.O_RDWR)
    errors = Errors()
    sys.stderr = errors  # type: ignore[assignment]
    atexit.register(errors.drain)

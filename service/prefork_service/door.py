"""The door of a process: a Unix socket at which others connect and say one thing.

A client that connects and says nothing must not keep others out. So such clients are limited in number and in time, and the
oldest of them makes way where the process has no descriptor left.
"""
import errno
import select
import selectors
import socket
import time
from collections.abc import Callable

# How long a client may say nothing, how many such clients there may be, and how long nobody is admitted if descriptors
# run out.
SILENT_SECONDS, MOST_SILENT, SHORT_SECONDS = 5.0, 64, 0.2
# A process that has no descriptors left says so once in a while.
SAY_SECONDS = 10.0
SHORT_OF = (errno.EMFILE, errno.ENFILE, errno.ENOBUFS, errno.ENOMEM)


class Door:
    """Clients that have connected and not said anything yet. `hear` is given one that has: it is not the door's then."""

    def __init__(
        self, events: selectors.BaseSelector, listener: socket.socket, hear: Callable[..., object], say: Callable[..., object], most: int = MOST_SILENT
    ):
        self.events, self.listener, self.hear, self.say, self.most = events, listener, hear, say, most
        listener.setblocking(False)
        # The silent ones, oldest first, with the moments until which they may be so.
        self.silent: dict[socket.socket, float] = {}
        # When the door is open again, if it is closed, and when it was last said why.
        self.closed_until, self.said = 0.0, -SAY_SECONDS
        events.register(listener, selectors.EVENT_READ, self.admit)

    def admit(self, _: socket.socket) -> None:
        try:
            client, _ = self.listener.accept()
        except OSError as fault:
            if fault.errno in SHORT_OF:
                self.make_room(fault)
            return
        client.setblocking(False)
        try:
            self.events.register(client, selectors.EVENT_READ, self.give)
        except OSError:
            # The system has no room to watch it.
            client.close()
            return
        self.silent[client] = time.monotonic() + SILENT_SECONDS
        if len(self.silent) > self.most:
            self.drop_oldest()

    def give(self, client: socket.socket) -> None:
        """A client says something, or has gone."""
        if self.silent.pop(client, None):
            self.events.unregister(client)
            self.hear(client)

    def drop_oldest(self) -> None:
        """The oldest client is dropped, unless it has said something by now."""
        client = next(iter(self.silent))
        if has_said(client):
            self.give(client)
            return
        del self.silent[client]
        self.events.unregister(client)
        client.close()

    def make_room(self, fault: OSError) -> None:
        """Descriptors have run out: the oldest silent client makes way, or nobody is admitted for a moment."""
        now = time.monotonic()
        if now - self.said > SAY_SECONDS:
            self.said = now
            self.say(f"a connection is not accepted: {fault.strerror}")
        if self.silent:
            self.drop_oldest()
        else:
            self.events.unregister(self.listener)
            self.closed_until = now + SHORT_SECONDS

    def replace(self, listener: socket.socket) -> None:
        """Another listener takes the place of the one whose name has gone."""
        if not self.closed_until:
            self.events.unregister(self.listener)
        self.listener.close()
        self.listener, self.closed_until = listener, 0.0
        listener.setblocking(False)
        self.events.register(listener, selectors.EVENT_READ, self.admit)

    def forsake(self, source: socket.socket) -> None:
        """A client that has failed again and again is dropped; the listener is heard again in a moment."""
        self.events.unregister(source)
        if source is self.listener:
            self.closed_until = time.monotonic() + SHORT_SECONDS
        else:
            self.silent.pop(source, None)
            source.close()

    def tend(self) -> None:
        """Drops those that have been silent for too long, and opens the door again."""
        now = time.monotonic()
        while self.silent and next(iter(self.silent.values())) < now:
            self.drop_oldest()
        if self.closed_until and now > self.closed_until:
            self.closed_until = 0.0
            self.events.register(self.listener, selectors.EVENT_READ, self.admit)

    def seconds(self) -> float | None:
        """How long until something is to be tended."""
        moments = [*list(self.silent.values())[:1], *([self.closed_until] if self.closed_until else [])]
        return max(0.0, min(moments) - time.monotonic()) if moments else None


def has_said(client: socket.socket) -> bool:
    """Whether there is something to read, or the end."""
    watched = select.poll()
    watched.register(client, select.POLLIN)
    return bool(watched.poll(0))

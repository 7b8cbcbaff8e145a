"""A WSGI application served by waitress, on sockets that are given, with a stop that loses no request.

The HTTP is waitress's: its parser, buffers, limits and threads. This module runs its loop, and stops it:

- It accepts no more connections. A request that has begun to arrive is answered.
- The next answer on a kept connection says `Connection: close`.
- A kept connection that stays idle is closed, after some seconds.
"""
import resource
import socket
import threading
import time
import types
from collections.abc import Callable
from typing import Any

import waitress.channel
import waitress.server
from waitress import wasyncore
from waitress.channel import ClientDisconnected, HTTPChannel
from waitress.server import create_server
from waitress.task import ErrorTask, WSGITask

from .access_log import AccessLog, LoggedAnswer
from .opening import MOST_QUEUE
from .overdue import late_ones, told
from .traffic import Counter

MOST_CONNECTIONS = 1000
# The descriptors that are left to the application, whatever the limit is.
OF_APPLICATION = 64
# A connection that has asked for nothing whole for so long makes way, once there are nearly as many as there may be.
SILENT_CLIENT_SECONDS, NEARLY = 30.0, 0.9
# The longest pause of the loop, in service and while it finishes.
SERVER_PAUSE, SERVER_SHORT_PAUSE = 1.0, 0.1
# How long the last lines of an access log may take.
LOG_SECONDS = 1.0
# When waitress has heard a connection last it reads from the clock on the wall, which may be set at any moment.
STEADY = types.SimpleNamespace(**{**vars(time), "time": time.monotonic})
for module in (waitress.channel, waitress.server):
    setattr(module, "time", STEADY)
# What a client gets that has gone before its answer had begun: nothing. nginx names it so.
CLIENT_HAS_GONE = 499


class Requests:
    """The requests that are being answered, with the times of their beginnings; and what was answered."""

    def __init__(self, counter: Counter, log: AccessLog | None, name: str):
        self.begun: dict[int, tuple[float, HTTPChannel]] = {}
        self.is_finishing = False
        self.counter, self.log, self.name = counter, log, name

    def oldest_if_all(self, threads: int) -> float | None:
        """If every thread is at a request: since when the last of them is, or its client has taken something of the answer.
        One that waits for its client is not at it."""
        all_begun = list(self.begun.values())
        begun = [max(moment, channel.last_activity) for moment, channel in all_begun if not waits_for_client(channel)]
        return max(begun) if len(begun) >= threads else None

    def note(self, task: Any, request: Any, status: int, size: int, came: float) -> None:
        """Counts an answer, and has it logged."""
        seconds = time.monotonic() - came
        self.counter.note(status, seconds)
        if not self.log:
            return
        known: dict[str, Any] = getattr(task, "environ", None) or {}
        target = getattr(request, "request_uri", "") or getattr(request, "path", "")
        self.log.note(LoggedAnswer(
            client=known.get("REMOTE_ADDR") or client_of(task.channel), user=str(known.get("REMOTE_USER") or ""),
            method=getattr(request, "command", None) or "", target=target, version=request.version, status=status,
            size=size, referer=request.headers.get("REFERER", ""),
            agent=request.headers.get("USER_AGENT", ""), seconds=seconds, moment=time.time(), worker=self.name,
        ))

    def write(self, is_last: bool = False) -> None:
        """Lets the service know what was counted."""
        self.counter.write(len(self.begun), self.log.lost if self.log else 0, is_last)


def client_of(channel: HTTPChannel) -> str:
    """The address of a client; at a Unix socket it has none."""
    return str(channel.addr[0]) if isinstance(channel.addr, tuple) else "unix"


class Noted:
    """A task that is noted, and closes its connection while the server finishes. It is mixed into tasks of waitress, which have the
    rest."""

    request: Any
    channel: Any
    status: str
    wrote_header: bool
    size_of_header = 0

    def service(self) -> None:
        began, before, requests = time.monotonic(), self.channel.sent, self.channel.server.noted
        requests.begun[id(self)] = began, self.channel
        # (after an application that has failed waitress answers in its place, and knows no request of it)
        request, came = self.channel.__dict__.pop("failed", (self.request, getattr(self.request, "came", began)))
        status = 500
        try:
            super().service()  # type: ignore[misc]
            status = int(self.status[:3])
        except ClientDisconnected:
            status = int(self.status[:3]) if self.wrote_header else CLIENT_HAS_GONE
            raise
        except Exception:
            if not self.wrote_header:
                self.channel.failed = request, came
            raise
        finally:
            del requests.begun[id(self)]
            self.channel.has_asked = time.monotonic()
            if not hasattr(self.channel, "failed"):
                size = self.channel.sent - before - self.size_of_header
                requests.note(self, request, status, max(0, size), came)

    def build_response_header(self) -> bytes:
        if self.channel.server.noted.is_finishing:
            self.request.headers["CONNECTION"] = "close"
        header: bytes = super().build_response_header()  # type: ignore[misc]
        self.size_of_header = len(header)
        return header


class NotedTask(Noted, WSGITask):
    """The answer of an application."""


class NotedFault(Noted, ErrorTask):
    """The answer of waitress in its place."""


class Timed(HTTPChannel):
    """A channel that knows when its requests were there, and how much was answered. Its server has `noted`, which is told."""

    task_class: Any = NotedTask
    error_task_class: Any = NotedFault
    sent = 0

    def write_soon(self, data: Any) -> int:
        size = super().write_soon(data)
        self.sent += size
        return size

    def received(self, data: bytes) -> bool:
        is_heard = super().received(data)
        now = time.monotonic()
        for request in list(self.requests):
            request.__dict__.setdefault("came", now)
        return is_heard


def waits_for_client(channel: HTTPChannel) -> bool:
    """Whether the answer waits until its client has taken more of it."""
    return channel.total_outbufs_len > channel.adj.outbuf_high_watermark


def most_connections() -> int:
    """How many connections the descriptors of this process are enough for: waitress spins where they run out."""
    soft, _ = resource.getrlimit(resource.RLIMIT_NOFILE)
    return MOST_CONNECTIONS if soft == resource.RLIM_INFINITY else max(1, min(MOST_CONNECTIONS, soft - OF_APPLICATION))


class Server:
    """The loop of the main thread. Other threads call `close`, `finish` and `is_stuck`."""

    def __init__(self, application: Callable[..., Any], sockets: dict[str, socket.socket], threads: int, keep: int, requests: Requests):
        self.requests, self.threads, self.turned = requests, threads, time.monotonic()
        self.lock, self.is_told_to_finish = threading.Lock(), False
        self.map: dict[int, Any] = {}
        self.wanted: list[str] = []
        # The connections whose requests have taken too long: nobody waits for them.
        self.given_up: set[Any] = set()
        self.keep, self.most = keep, most_connections()
        limits: dict[str, Any] = {
            "threads": threads, "backlog": MOST_QUEUE, "connection_limit": self.most, "channel_timeout": keep,
            "cleanup_interval": 1, "asyncore_use_poll": True, "ident": None, "clear_untrusted_proxy_headers": False,
        }
        create_server(application, map=self.map, sockets=list(sockets.values()), **limits)
        doors = {one.socket.getsockname(): one for one in list(self.map.values()) if hasattr(one, "active_channels")}
        self.doors = {address: doors[listener.getsockname()] for address, listener in sockets.items()}
        for door in self.doors.values():
            door.channel_class, door.noted = Timed, self.requests
            # For an application: the address, and not a name that nobody has.
            door.server_name = door.effective_host
        first = next(iter(self.doors.values()))
        self.trigger, self.dispatcher = first.trigger, first.task_dispatcher

    def run(self, idle: float, finish: float) -> None:
        """Serves until it is told to finish, and then until all is answered, or `finish` seconds have passed."""
        deadline = None
        while True:
            self.turned = time.monotonic()
            self.act()
            self.drop_slow()
            self.requests.write()
            if self.is_told_to_finish:
                deadline = deadline or self.turned + finish
                if self.close_idle(idle) or self.turned > deadline:
                    return
            pause = SERVER_SHORT_PAUSE if self.is_told_to_finish else SERVER_PAUSE
            wasyncore.loop(timeout=pause, use_poll=True, map=self.map, count=1)

    def act(self) -> None:
        """Closes what other threads want closed."""
        with self.lock:
            wanted, self.wanted = self.wanted, []
        for address in wanted:
            door = self.doors.pop(address, None)
            if door:
                # Its connections stay in the map, and so does its trigger, which threads pull.
                door.accepting = False
                door.del_channel(self.map)
                door.socket.close()

    def drop_slow(self) -> None:
        """Closes connections that take nothing of their answer, and, where there are too many, those that ask too slowly."""
        channels: list[Any] = [one for one in list(self.map.values()) if isinstance(one, HTTPChannel)]
        for one in channels:
            if one.total_outbufs_len and time.monotonic() - one.last_activity > self.keep:
                one.handle_close()
        if len(channels) < NEARLY * self.most:
            return
        now = time.monotonic()
        for one in channels:
            # (a client that has never asked has no such moment, and gets one)
            one.has_asked = getattr(one, "has_asked", now)
            if not one.requests and not one.total_outbufs_len and now - one.has_asked > SILENT_CLIENT_SECONDS:
                one.handle_close()

    def close(self, address: str) -> None:
        with self.lock:
            self.wanted.append(address)
        self.trigger.pull_trigger()

    def finish(self) -> None:
        self.is_told_to_finish = self.requests.is_finishing = True
        with self.lock:
            self.wanted += list(self.doors)
        self.trigger.pull_trigger()

    def reopen(self) -> None:
        if self.requests.log:
            self.requests.log.reopen()

    def settle(self) -> None:
        self.requests.write(is_last=True)
        if self.requests.log:
            self.requests.log.finish(LOG_SECONDS)

    def end(self) -> None:
        """Ends its threads, and closes what it has opened itself. Raises OSError."""
        self.dispatcher.shutdown()
        self.trigger.close()

    def close_idle(self, idle: float) -> bool:
        """Closes connections that are idle; whether none is open."""
        channels = [one for one in self.map.values() if isinstance(one, HTTPChannel)]
        for one in channels:
            is_idle = not one.requests and not one.total_outbufs_len and not one.close_when_flushed
            if is_idle and time.monotonic() - one.last_activity > idle:
                one.will_close = True
        return not set(channels) - self.given_up

    def give_up(self, seconds: float) -> list[str]:
        """Finishes where requests have taken longer than this; why, for each of them once."""
        begun = list(self.requests.begun.values())
        late = [one for one in late_ones(begun, seconds) if one not in self.given_up]
        self.given_up |= set(late)
        if late and not self.is_told_to_finish:
            self.finish()
        others = sum(channel not in self.given_up for _, channel in begun)
        return [told(one, seconds, others) for one in late]

    def is_stuck(self, timeout: float) -> bool:
        """Whether no thread has taken a new request for so long, or the loop has not turned."""
        now, since = time.monotonic(), self.requests.oldest_if_all(self.threads)
        return now - self.turned > timeout or since is not None and now - since > timeout

"""Pages for people and for programs: HTTP that only reads, beside the loop of the service.

A visitor that asks too slowly, or reads too slowly, is dropped; it delays nobody."""
import os
import selectors
import socket
import time
from collections.abc import Callable, Sequence

from .addresses import endpoint_of, socket_for, text_of
from .door import Door
from .folder import plain, say
from .socket_files import make_place
from .sockets import file_of, is_tcp

# How long a visit may take, and how long a question may be. How many visits there may be, and how many that say nothing.
VISIT_SECONDS, LONGEST_REQUEST, MOST_VISITS, MOST_SILENT_VISITORS = 10.0, 8192, 16, 16
PAGE_QUEUE = 32
STATUS_TEXTS = {200: "OK", 400: "Bad Request", 404: "Not Found", 405: "Method Not Allowed", 421: "Misdirected Request"}
# What is said to a visitor that asks for another host: a page of another site may have a name that leads here.
ELSEWHERE = "this page is not that of {}. Ask for {}, or name the other one to prefork-serve: --host NAME\n"
# What a page may do: show itself, and run and ask the scripts and paths of its own address.
POLICY = "default-src 'none'; style-src 'unsafe-inline'; script-src 'self'; connect-src 'self'; base-uri 'none'; " \
    "form-action 'none'; frame-ancestors 'none'"
# What is told of a path: a kind of text, and the text.
Pages = dict[str, Callable[[], tuple[str, str]]]


def opened(address: str) -> socket.socket:
    """Listens at HOST:PORT, or at the path of a Unix socket. Raises OSError."""
    one = socket_for(address)
    try:
        if address.startswith("/"):
            make_place(address)
            one.bind(address)
        else:
            one.setsockopt(socket.SOL_SOCKET, socket.SO_REUSEADDR, 1)
            one.bind(endpoint_of(address))
        one.listen(PAGE_QUEUE)
    except (OSError, ValueError, OverflowError) as fault:
        one.close()
        raise OSError(f"{address}: {getattr(fault, 'strerror', None) or fault}") from fault
    return one


def door_of(client: socket.socket) -> str:
    """Where a visitor has come in, HOST:PORT; nothing at a Unix socket, which no browser reaches by a name."""
    return text_of(client.getsockname()) if is_tcp(client) else ""


def hosts_in(heard: bytes) -> list[str]:
    """The hosts that a question is for. One of HTTP/1.0 may have none, and no browser asks such."""
    head = heard.replace(b"\r\n", b"\n").partition(b"\n\n")[0].decode("latin-1").split("\n")[1:]
    fields = [line.partition(":") for line in head]
    return [value.strip().lower() for name, _, value in fields if name.strip().lower() == "host"]


class Visit:
    """A connection: what was heard, what is still to be said, and until when it may take."""

    def __init__(self, client: socket.socket):
        self.client, self.heard, self.unsaid = client, b"", b""
        self.until, self.is_answered = time.monotonic() + VISIT_SECONDS, False


class Site:
    """Pages at an address."""

    def __init__(self, events: selectors.BaseSelector, address: str, pages: Pages, hosts: Sequence[str] = ()):
        """Beside its address `hosts` are names by which visitors may ask for it."""
        self.events, self.pages, self.hosts = events, pages, [name.lower() for name in hosts]
        self.visits: dict[socket.socket, Visit] = {}
        self.address, self.listener = address, opened(address)
        # What tells its Unix socket from others.
        self.file = file_of(address)
        self.door = Door(events, self.listener, self.welcome, say, MOST_SILENT_VISITORS)

    def welcome(self, client: socket.socket) -> None:
        if len(self.visits) >= MOST_VISITS:
            self.drop(min(self.visits.values(), key=lambda visit: visit.until))
        visit = Visit(client)
        try:
            self.events.register(client, selectors.EVENT_READ, self.hear)
        except OSError:
            # The system has no room to watch it.
            client.close()
            return
        self.visits[client] = visit
        self.hear(client)

    def hear(self, client: socket.socket) -> None:
        visit = self.visits.get(client)
        if not visit:
            # It has been dropped in this very turn.
            return
        try:
            got = client.recv(LONGEST_REQUEST)
        except BlockingIOError:
            return
        except OSError:
            got = b""
        visit.heard += got
        if not got or visit.is_answered and len(visit.heard) > LONGEST_REQUEST:
            self.drop(visit)
        elif not visit.is_answered and (b"\r\n\r\n" in visit.heard or b"\n\n" in visit.heard or len(visit.heard) > LONGEST_REQUEST):
            visit.is_answered, visit.unsaid = True, self.answer(visit.heard, door_of(client))
            self.say_more(client)
            if visit.unsaid and client in self.visits:
                self.events.modify(client, selectors.EVENT_WRITE, self.say_more)

    def answer(self, heard: bytes, place: str = "") -> bytes:
        """The answer to a question that has come at a place, HOST:PORT."""
        words = heard.split(b"\r\n", 1)[0].decode("latin-1").split(" ")
        path = words[1].partition("?")[0] if len(words) == 3 else ""
        status, kind, text = 200, "text/plain; charset=utf-8", ""
        asked = hosts_in(heard)
        if len(words) != 3 or not words[2].startswith("HTTP/1.") or len(asked) > 1 or len(heard) > LONGEST_REQUEST:
            status, text = 400, "not a question\n"
        elif place and asked and not self.is_own(asked[0], place):
            status, text = 421, ELSEWHERE.format(plain(asked[0]), place)
        elif words[0] not in ("GET", "HEAD"):
            status, text = 405, "this page is only read\n"
        elif path not in self.pages:
            status, text = 404, "there is no such page\n"
        else:
            kind, text = self.pages[path]()
        body = text.encode()
        head = f"HTTP/1.1 {status} {STATUS_TEXTS[status]}\r\nContent-Type: {kind}\r\nContent-Length: {len(body)}\r\n" \
            f"Cache-Control: no-store\r\nContent-Security-Policy: {POLICY}\r\n" \
            "X-Content-Type-Options: nosniff\r\nConnection: close\r\n\r\n"
        return head.encode() + (b"" if words[0] == "HEAD" else body)

    def is_own(self, host: str, place: str) -> bool:
        """Whether a host is one of this page: the place where the question has come, localhost there, or a name that was
        given, at any port."""
        address, _, port = place.rpartition(":")
        own = [f"{name}:{port}" for name in (address, "localhost")]
        own += [address, "localhost"] if port == "80" else []
        return host in own or host.partition(":")[0] in self.hosts or host in self.hosts

    def say_more(self, client: socket.socket) -> None:
        visit = self.visits.get(client)
        if not visit:
            return
        try:
            visit.unsaid = visit.unsaid[client.send(visit.unsaid) :]
            if not visit.unsaid:
                # Its own side ends first: what the client still sends would cut the answer off.
                client.shutdown(socket.SHUT_WR)
                if self.events.get_key(client).events != selectors.EVENT_READ:
                    self.events.modify(client, selectors.EVENT_READ, self.hear)
        except BlockingIOError:
            pass
        except OSError:
            self.drop(visit)

    def forsake(self, client: socket.socket) -> None:
        """A visit that has failed again and again."""
        if client in self.visits:
            self.drop(self.visits[client])

    def drop(self, visit: Visit) -> None:
        del self.visits[visit.client]
        self.events.unregister(visit.client)
        visit.client.close()

    def tend(self) -> None:
        """Drops those that have taken too long."""
        self.door.tend()
        now = time.monotonic()
        for visit in [visit for visit in self.visits.values() if visit.until < now]:
            self.drop(visit)

    def end(self) -> None:
        self.listener.close()
        if self.file and file_of(self.address) == self.file:
            os.unlink(self.address)

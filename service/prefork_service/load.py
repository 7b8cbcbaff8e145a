"""prefork-load [--clients N] [--rate N] [--seconds N] [--patience SECONDS] [--path PATH] [--again] [--json] ADDRESS

Sends requests to a service, half of the clients on a new connection each time and half on kept ones, and says at its
end how many were answered by which version and how many failed, the slowest one, and the longest time between two
answers. It ends after a number of seconds, or with SIGINT or SIGTERM, once the requests that are on their way are
answered.

A request has failed if no whole answer with status 200 has come within --patience seconds (10). If the service closes a
kept connection before it answers, that is a failure too; with --again it is asked once more on a new connection, as
HTTP allows, and counted apart. The status is 1 if a request has failed.
"""
import argparse
import json
import signal
import socket
import threading
import time
from typing import Any

from . import VERSION
from .addresses import host_and_port

PATIENCE = 10.0
END_SIGNALS = (signal.SIGINT, signal.SIGTERM)


class Closed(ValueError):
    """The connection has ended before its answer."""


class Tally:
    """What was answered, and what was not."""

    def __init__(self) -> None:
        self.lock, self.began = threading.Lock(), time.monotonic()
        self.last, self.gap, self.slowest = self.began, 0.0, 0.0
        self.answers: dict[str, int] = {}
        self.failures: list[dict[str, Any]] = []
        self.again = 0

    def answered(self, body: str, began: float) -> None:
        """Counts an answer: its version is the second word of its text."""
        now, version = time.monotonic(), (body.split() + ["", "?"])[1]
        with self.lock:
            self.answers[version] = self.answers.get(version, 0) + 1
            self.gap, self.last = max(self.gap, now - self.last), now
            self.slowest = max(self.slowest, now - began)

    def failed(self, began: float, keeps: bool, fault: Exception) -> None:
        with self.lock:
            self.failures.append({"began": began, "kept": keeps, "fault": repr(fault)})

    def summary(self) -> dict[str, Any]:
        seconds, count = time.monotonic() - self.began, sum(self.answers.values())
        return {
            "answered": count, "failed": len(self.failures), "rate": round(count / seconds, 1), "slowest": self.slowest,
            "gap": self.gap, "again": self.again, "versions": self.answers, "failures": self.failures[:20],
        }


class Client:
    """Requests one after another, on a kept connection or on a new one each time."""

    def __init__(self, given: argparse.Namespace, keeps: bool, tally: Tally, stopping: threading.Event):
        self.given, self.keeps, self.tally, self.stopping = given, keeps, tally, stopping
        # The connection that is open, if there is one.
        self.connection: Any = None
        self.unread = b""

    def run(self) -> None:
        pause, due = self.given.clients / self.given.rate if self.given.rate else 0, time.monotonic()
        while not self.stopping.is_set():
            self.ask()
            # A client that was held up asks faster afterwards.
            due += pause
            if pause:
                self.stopping.wait(max(0, due - time.monotonic()))
        self.leave()

    def ask(self) -> None:
        began, was_kept = time.monotonic(), self.connection is not None
        try:
            try:
                answer = self.exchange()
            except (Closed, ConnectionResetError, BrokenPipeError):
                if not (was_kept and self.given.again) or self.unread:
                    raise
                self.leave()
                self.tally.again += 1
                answer = self.exchange()
            self.tally.answered(answer, began)
        except (OSError, ValueError) as fault:
            self.tally.failed(began, was_kept, fault)
            self.leave()

    def exchange(self) -> str:
        """Sends a request, and receives the text of its answer."""
        if not self.connection:
            self.connection, self.unread = connected(self.given.address, self.given.patience), b""
        manner = "keep-alive" if self.keeps else "close"
        asked = f"GET {self.given.path} HTTP/1.1\r\nHost: load\r\nConnection: {manner}\r\n\r\n"
        self.connection.sendall(asked.encode())
        return self.read_answer()

    def read_answer(self) -> str:
        """The text of an answer. If the answer says that it is the last, the connection is closed afterwards."""
        head = self.read_up_to(b"\r\n\r\n")
        first, *lines = head.decode().lower().split("\r\n")
        headers = {name.strip(): value.strip() for name, _, value in (line.partition(":") for line in lines)}
        if "content-length" in headers:
            body = self.read_bytes(int(headers["content-length"]))
        elif headers.get("transfer-encoding") == "chunked":
            body = self.read_chunks()
        else:
            body = self.read_all()
        if not self.keeps or headers.get("connection") == "close" or first.startswith("http/1.0"):
            self.leave()
        if first.split(" ")[1:2] != ["200"]:
            raise ValueError(first)
        return body.decode()

    def read(self) -> None:
        got = self.connection.recv(65536)
        if not got:
            raise Closed("the connection has ended before its answer")
        self.unread += got

    def read_up_to(self, end: bytes) -> bytes:
        while end not in self.unread:
            self.read()
        found, _, self.unread = self.unread.partition(end)
        return found

    def read_bytes(self, size: int) -> bytes:
        while len(self.unread) < size:
            self.read()
        found, self.unread = self.unread[:size], self.unread[size:]
        return found

    def read_chunks(self) -> bytes:
        body = b""
        while size := int(self.read_up_to(b"\r\n").split(b";")[0], 16):
            body += self.read_bytes(size)
            self.read_up_to(b"\r\n")
        self.read_up_to(b"\r\n")
        return body

    def read_all(self) -> bytes:
        """A body whose end is the connection's."""
        while got := self.connection.recv(65536):
            self.unread += got
        found, self.unread = self.unread, b""
        self.leave()
        return found

    def leave(self) -> None:
        if self.connection:
            self.connection.close()
        self.connection = None


def connected(address: str, patience: float) -> socket.socket:
    if address.startswith("/"):
        connection = socket.socket(socket.AF_UNIX)
        connection.settimeout(patience)
        connection.connect(address)
        return connection
    host, port = host_and_port(address)
    return socket.create_connection((host, int(port)), patience)


def arguments() -> argparse.Namespace:
    parser = argparse.ArgumentParser(
        prog="prefork-load", description="Sends requests to a service and counts those that fail."
    )
    parser.add_argument("--version", action="version", version=f"prefork-load {VERSION}")
    parser.add_argument("--clients", type=int, default=8, help="how many ask at a time (8)")
    parser.add_argument("--rate", type=float, help="requests a second of all clients together; else as many as can be")
    parser.add_argument("--seconds", type=float, help="when to end; else with a signal")
    parser.add_argument("--patience", type=float, default=PATIENCE, metavar="SECONDS", help="for an answer (10)")
    parser.add_argument("--path", default="/", help="what is asked for (/)")
    parser.add_argument("--again", action="store_true", help="ask again where a kept connection was closed")
    parser.add_argument("--json", action="store_true", help="one line of JSON")
    parser.add_argument("address", metavar="ADDRESS", help="HOST:PORT, or the path of a Unix socket")
    return parser.parse_args()


def told(found: dict[str, Any]) -> None:
    print(f"{found['answered']} answered, {found['failed']} failed, {found['rate']} a second")
    print(f"slowest {found['slowest']:.3f} s, longest time between two answers {found['gap']:.3f} s")
    for version, count in sorted(found["versions"].items()):
        print(f"version {version}: {count}")
    for failure in found["failures"]:
        print(f"failed: {'kept' if failure['kept'] else 'new'} connection: {failure['fault']}")


def main() -> int:
    given, tally, stopping = arguments(), Tally(), threading.Event()
    for end in END_SIGNALS:
        signal.signal(end, lambda number, frame: stopping.set())
    clients = [Client(given, place % 2 == 1, tally, stopping) for place in range(given.clients)]
    threads = [threading.Thread(target=client.run) for client in clients]
    # Threads have the mask of who starts them. A signal that one of them took would not wake the main thread, which waits.
    signal.pthread_sigmask(signal.SIG_BLOCK, END_SIGNALS)
    for thread in threads:
        thread.start()
    signal.pthread_sigmask(signal.SIG_UNBLOCK, END_SIGNALS)
    stopping.wait(given.seconds)
    stopping.set()
    for thread in threads:
        thread.join()
    found = tally.summary()
    print(json.dumps(found)) if given.json else told(found)
    return 1 if found["failed"] else 0


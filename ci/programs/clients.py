"""Clients of a program: the load on it, and those that come while it stops."""
import collections
import json
import re
import signal
import subprocess
import threading
import time
from collections.abc import Callable
from typing import Any, Protocol

CLIENTS, RATE = 8, 200
VERSION = re.compile(r"version (\S+)")
# How long a request may wait: nobody is to be refused because the machine is busy.
PATIENCE = 40
Asks = Callable[[str], str]


class Load(Protocol):
    """Clients that ask again and again."""

    def end(self, seconds: float) -> dict[str, Any]:
        """Ends them; what they have counted, as prefork-load says it."""

    def close(self) -> None:
        """Ends them, and says nothing."""


class HttpLoad:
    """prefork-load, on new and on kept connections."""

    def __init__(self, command: list[Any], **how: Any):
        asks = ["--json", "--again", "--clients", str(CLIENTS), "--rate", str(RATE), "--patience", str(PATIENCE)]
        self.process = subprocess.Popen([command[0], *asks, *command[1:]], stdout=subprocess.PIPE, text=True, **how)

    def end(self, seconds: float) -> dict[str, Any]:
        self.process.send_signal(signal.SIGTERM)
        found: dict[str, Any] = json.loads(self.process.communicate(timeout=seconds)[0])
        return found

    def close(self) -> None:
        self.process.kill()
        self.process.communicate()


class OwnLoad:
    """Threads of this process that ask on new connections."""

    def __init__(self, ask: Asks):
        self.ask, self.is_over = ask, threading.Event()
        self.versions, self.failures = collections.Counter[str](), list[str]()
        self.clients = [threading.Thread(target=self.go) for _ in range(CLIENTS)]
        for client in self.clients:
            client.start()

    def go(self) -> None:
        while not self.is_over.wait(CLIENTS / RATE):
            try:
                answer = self.ask("/")
            except OSError as fault:
                self.failures.append(repr(fault))
            else:
                found = VERSION.match(answer)
                self.versions[found[1] if found else answer[:100]] += 1

    def end(self, seconds: float) -> dict[str, Any]:
        self.close()
        answered = sum(self.versions.values())
        return {"failed": len(self.failures), "answered": answered, "failures": self.failures, "versions": self.versions}

    def close(self) -> None:
        self.is_over.set()
        for client in self.clients:
            client.join()


class Knocking:
    """Clients that make 200 new connections a second, ask on each at once, and tell what came of it and how long the
    slowest one of each kind took. A client that was refused knows that each later one has to be."""

    def __init__(self, ask: Asks):
        self.ask, self.is_over = ask, threading.Event()
        self.told, self.slowest = collections.Counter[str](), dict[str, float]()
        # When the first one was refused, and those that were answered though they came after it.
        self.refused_at, self.answered_late = float("inf"), 0
        self.telling = threading.Lock()
        self.clients = [threading.Thread(target=self.knock) for _ in range(CLIENTS)]

    def __enter__(self) -> "Knocking":
        for client in self.clients:
            client.start()
        return self

    def __exit__(self, *_: Any) -> None:
        self.is_over.set()
        for client in self.clients:
            client.join()

    def knock(self) -> None:
        while not self.is_over.wait(CLIENTS / RATE):
            began = time.monotonic()
            outcome = self.outcome()
            self.tell(outcome, began, time.monotonic())

    def tell(self, outcome: str, began: float, ended: float) -> None:
        with self.telling:
            self.answered_late += outcome == "answered" and began > self.refused_at
            if outcome == "refused":
                self.refused_at = min(self.refused_at, ended)
            self.told[outcome] += 1
            self.slowest[outcome] = max(self.slowest.get(outcome, 0.0), ended - began)

    def outcome(self) -> str:
        try:
            return "answered" if self.ask("/").startswith("version ") else "another answer"
        except ConnectionRefusedError:
            return "refused"
        except OSError as fault:
            return f"{fault!r}"

    def summary(self) -> str:
        """What came of them, for people."""
        return ", ".join(f"{count} {kind}, at most {self.slowest[kind]:.2f} s" for kind, count in self.told.most_common())

"""What the tests of workers share."""
import os
import pathlib
import random
import shutil
import signal
import socket
import subprocess
import sys
import tempfile
import time
import unittest
import uuid
from collections.abc import Callable
from typing import Any
from unittest import mock

from prefork_service.conversation import CHECKED_WORKER, Conversation, marked

SERVICE = pathlib.Path(__file__).resolve().parent.parent
BIN, OUT, PROGRAMS = SERVICE / "bin", SERVICE / "out", SERVICE / "tests" / "programs"
# Below the ports that the system gives to outgoing connections.
PORTS = range(15000, 32000)


def until(holds: Callable[[], Any], seconds: float = 60.0) -> bool:
    """Waits for something to hold; whether it did."""
    deadline = time.monotonic() + seconds
    while time.monotonic() < deadline:
        if holds():
            return True
        time.sleep(0.02)
    return False


def clock_ahead(seconds: float) -> mock.Mock:
    """A clock that shows a later time."""
    return mock.Mock(monotonic=lambda: time.monotonic() + seconds)


def free_address() -> str:
    while True:
        with socket.socket() as probe:
            try:
                probe.bind(("127.0.0.1", random.choice(PORTS)))
            except OSError:
                continue
            return "127.0.0.1:%d" % probe.getsockname()[1]


def has_ipv6() -> bool:
    """Whether this machine has an IPv6 loopback."""
    try:
        with socket.socket(socket.AF_INET6) as probe:
            probe.bind(("::1", 0))
        return True
    except OSError:
        return False


def is_open(address: str) -> bool:
    """Whether somebody listens at an address."""
    host, _, port = address.rpartition(":")
    try:
        socket.create_connection((host.strip("[]"), int(port)), 5).close()
        return True
    except ConnectionRefusedError:
        return False


def end_all(running: Callable[[], Any], seconds: float = 5.0) -> None:
    """Ends the processes whose numbers `running` gives. A process that holds a program for an adapter kills all that the
    program has started, and so it is left to end by itself, for some seconds."""
    deadline = time.monotonic() + seconds
    while left := running():
        for number in left:
            try:
                name = pathlib.Path(f"/proc/{number}/comm").read_text()
                if name != "prefork-hold\n" or time.monotonic() > deadline:
                    os.kill(number, signal.SIGKILL)
            except (OSError, ProcessLookupError):
                pass
        time.sleep(0.05)


def answer_of(address: str, path: str = "/", seconds: float = 60.0) -> str:
    """The text of an answer, on a connection of its own."""
    host, _, port = address.rpartition(":")
    with socket.create_connection((host, int(port)), seconds) as connection:
        connection.sendall(f"GET {path} HTTP/1.1\r\nHost: {address}\r\nConnection: close\r\n\r\n".encode())
        with connection.makefile("rb") as got:
            return got.read().decode().partition("\r\n\r\n")[2]


def built() -> None:
    """Compiles the C programs if they are not there, and those of the tests if they are not there or have changed; that
    in Go where the machine has what compiles it."""
    if not (OUT / "prefork-activate").exists():
        subprocess.run([SERVICE / "build"], check=True)
    compile_page("page", "page.c", ["cc", "-std=gnu11", "-O2", "-o"])
    if shutil.which("go"):
        compile_page("page-go", "page.go", ["go", "build", "-o"])


def compile_page(name: str, source: str, compiler: list[str]) -> None:
    """Compiles a program of the tests if it is not there or older than its source. It is replaced as a whole: others may
    run it."""
    page, text = OUT / name, PROGRAMS / source
    if page.exists() and page.stat().st_mtime >= text.stat().st_mtime:
        return
    new, environment = OUT / f".{name}-{os.getpid()}", {**os.environ, "GOCACHE": str(OUT / "go-cache"), "GO111MODULE": "off"}
    subprocess.run([*compiler, new, text], check=True, env=environment)
    new.replace(page)


class WorkerTest(unittest.TestCase):
    """Workers that are told lines, with a keeper of their own. Nothing of them may be left."""

    @classmethod
    def setUpClass(cls) -> None:
        built()

    def setUp(self) -> None:
        room = tempfile.TemporaryDirectory(prefix="worker-")
        self.addCleanup(room.cleanup)
        self.room, self.mark = pathlib.Path(room.name), uuid.uuid4().hex
        self.talks: list[Conversation] = []
        self.path = self.room / "keeper.sock"
        self.keep()
        self.addCleanup(self.end)

    def keep(self) -> None:
        """Starts a keeper."""
        self.keeper: Any = subprocess.Popen([BIN / "prefork-keeper", self.path], stdin=subprocess.PIPE)
        self.assertTrue(until(self.path.exists))

    def replace_keeper(self) -> None:
        """Kills the keeper, and starts another one."""
        self.keeper.kill()
        self.keeper.wait()
        self.keeper.stdin.close()
        self.path.unlink()
        self.keep()

    def end(self) -> None:
        for talk in self.talks:
            talk.close()
        self.assertTrue(until(lambda: not marked(self.mark)), marked(self.mark))
        self.keeper.stdin.close()
        self.keeper.wait(60)

    def started(self, *command: str, addresses: tuple[str, ...] = (), go: bool = True, **more: str) -> Conversation:
        """A worker that was told its addresses."""
        environment = {**os.environ, CHECKED_WORKER: self.mark, "PREFORK_KEEPER": str(self.path), **more}
        talk = Conversation([str(word) for word in command], environment)
        self.talks.append(talk)
        talk.say("worker 1.1 0 7", *(f"listener {address}" for address in addresses))
        if go:
            talk.say("go")
        return talk

    def left(self) -> list[str]:
        """Files that workers have left beside the keeper's socket."""
        return sorted(file.name for file in self.room.iterdir() if file.name != "keeper.sock")


PYTHON = sys.executable

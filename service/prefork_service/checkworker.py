"""prefork-checkworker [--path PATH] [--slow PATH] [--one] [--preload] [--patience SECONDS] COMMAND..

Checks whether COMMAND is a worker by the convention of docs/WORKERS.md. It plays the master, with a keeper beside it,
on loopback and in a temporary folder, and compares what the worker answers and serves. --path is a page (/), --slow one
that takes a second or more; without it, what concerns requests in progress is not checked. With --one it is told one
address at a time. With --preload, COMMAND is a preloader (docs/workers/preloaders.md): it is checked, and the workers that
it forks are. --patience says how long it may take to load, and to finish (45).

Prints a line for each point, and then 'N passed, M failed'. The status is 1 if any point failed.
"""
import argparse
import fcntl
import os
import pathlib
import random
import signal
import socket
import struct
import subprocess
import sys
import tempfile
import threading
import time
import uuid
from collections.abc import Callable, Sequence
from typing import Any

from . import VERSION, places
from .addresses import host_and_port
from .conversation import END, CHECKED_WORKER, RUNS_ON, Conversation, marked
from .programs import fault_of

# How long a worker may take to load and to finish, and at most to answer a line or a request.
CHECK_PATIENCE, CHECKED_ANSWER_SECONDS = 45.0, 10.0
# Below the ports that the system gives to outgoing connections.
PORTS = range(15000, 32000)
LEAST_BACKLOG = 511
# In the TCP_INFO of a listening socket: the offsets of the number of connections that wait, and of the longest queue.
WAITING_AT, BACKLOG_AT, INFO_BYTES = 24, 28, 104
CLIENTS = 4


def free_address() -> str:
    while True:
        with socket.socket() as probe:
            try:
                probe.bind(("127.0.0.1", random.choice(PORTS)))
            except OSError:
                continue
            return "127.0.0.1:%d" % probe.getsockname()[1]


def first_line(address: str, path: str, seconds: float) -> str:
    """Asks for a page, and gives the first line of the answer, or the fault."""
    try:
        return line_of(asked(address, path, seconds))
    except OSError as fault:
        return f"{fault}"


def asked(address: str, path: str, seconds: float) -> socket.socket:
    """A connection on which a page was asked for."""
    host, port = host_and_port(address)
    connection = socket.create_connection((host, int(port)), seconds)
    connection.sendall(f"GET {path} HTTP/1.1\r\nHost: check\r\nConnection: close\r\n\r\n".encode())
    return connection


def line_of(connection: socket.socket) -> str:
    """Reads an answer to its end, and gives its first line, or the fault."""
    got = b""
    with connection:
        try:
            while piece := connection.recv(65536):
                got += piece
        except OSError as fault:
            return f"{fault}"
    return got.split(b"\r\n", 1)[0].decode("latin-1") or "an end without an answer"


def number_of(listener: socket.socket, at: int) -> int:
    """What the system says of a listening socket."""
    return int(struct.unpack_from("I", listener.getsockopt(socket.IPPROTO_TCP, socket.TCP_INFO, INFO_BYTES), at)[0])


def is_answer(line: str) -> bool:
    return line.startswith("HTTP/1.") and line[9:10] in ("2", "3", "4")


def is_fault(status: object) -> bool:
    return status not in (0, RUNS_ON)


class NotReady(Exception):
    """The worker has not become ready: the rest of a check says nothing."""


class NotLoaded(Exception):
    """The preloader has not loaded: the other checks say nothing."""


class Bench:
    """What a worker is checked on: a keeper, addresses, and the points that were met or not."""

    def __init__(self, given: argparse.Namespace, room: pathlib.Path):
        self.given, self.room, self.passed, self.failed = given, room, 0, 0
        self.talks: list[Conversation] = []
        self.patience, self.answer = given.patience, min(given.patience, CHECKED_ANSWER_SECONDS)
        self.path = room / "keeper.sock"
        self.keeper: Any = subprocess.Popen([places.KEEPER, self.path], stdin=subprocess.PIPE, start_new_session=True)
        while not self.path.exists() and self.keeper.poll() is None:
            time.sleep(0.01)

    def command(self) -> list[str]:
        """What a master starts."""
        return [*self.given.command]

    def more(self, mark: str) -> dict[str, str]:
        """More variables of a worker with a mark."""
        return {"PREFORK_FOLDER": str(self.room), "PREFORK_WORKER": self.name_of(mark)}

    def name_of(self, mark: str) -> str:
        """The name of the worker with a mark."""
        return "1.1.0"

    def left(self, talk: Conversation) -> list[int]:
        """The processes of a worker."""
        return marked(talk.mark)

    def started(self, *addresses: str, go: bool = True, keeper: str = "") -> Conversation:
        """A worker that was told its addresses."""
        mark = uuid.uuid4().hex
        environment = {**os.environ, CHECKED_WORKER: mark, "PREFORK_KEEPER": keeper or str(self.path), **self.more(mark)}
        talk = Conversation(self.command(), environment, mark)
        self.talks.append(talk)
        talk.say("worker 1.1 0 7", *(f"listener {address}" for address in addresses))
        if go:
            talk.say("go")
        return talk

    def ready(self, *addresses: str) -> Conversation:
        talk = self.started(*addresses)
        said = talk.hear(self.patience)
        self.point("after go it says ready, and nothing before", said, "ready")
        if said != "ready":
            raise NotReady
        return talk

    def point(self, what: str, found: object, wanted: object) -> None:
        """Notes whether a point is met: what was found is what is wanted, or the question `wanted` says yes."""
        is_met = wanted(found) if callable(wanted) else found == wanted
        self.passed, self.failed = self.passed + is_met, self.failed + (not is_met)
        print(f"ok     {what}" if is_met else f"FAULT  {what}; found: {found!r}", flush=True)

    def shared(self, address: str) -> socket.socket:
        """The socket of an address, that all workers share."""
        with socket.socket(socket.AF_UNIX, socket.SOCK_SEQPACKET) as hold:
            hold.connect(str(self.path))
            hold.send(address.encode())
            _, given, _, _ = socket.recv_fds(hold, 200, 1)
        return socket.socket(fileno=given[0])

    def await_accepted(self, address: str) -> None:
        """Waits until no connection waits at an address, and for the worker to read what was asked."""
        deadline = time.monotonic() + self.answer
        with self.shared(address) as listener:
            while number_of(listener, WAITING_AT) and time.monotonic() < deadline:
                time.sleep(0.02)
        time.sleep(0.4)

    def nothing_left(self, when: str, talk: Conversation) -> None:
        deadline = time.monotonic() + self.answer
        while self.left(talk) and time.monotonic() < deadline:
            time.sleep(0.05)
        self.point(f"{when}, no process of it is left", self.left(talk), [])

    def close(self) -> None:
        for talk in self.talks:
            talk.close()
            for number in self.left(talk):
                os.kill(number, signal.SIGKILL)
        os.kill(self.keeper.pid, signal.SIGCONT)
        self.keeper.stdin.close()
        self.keeper.wait(self.answer)


def check_lines(bench: Bench) -> None:
    """The lines of a worker in service."""
    one, other = free_address(), free_address()
    told = (one,) if bench.given.one else (one, other)
    talk = bench.ready(*told)
    for address in told:
        line = first_line(address, bench.given.path, bench.answer)
        bench.point("once it is ready, it answers requests at each address", line, is_answer)
    talk.say("ping")
    bench.point("ping is answered by pong, and it says nothing unasked", talk.hear(bench.answer), "pong")
    talk.say("tick 12345")
    bench.point("tick is answered by beat, the moment and its start", talk.hear(bench.answer), "beat 12345 7")
    talk.say("usr1", "ping")
    bench.point("usr1 is not answered", talk.hear(bench.answer), "pong")
    talk.say(f"close {other}", "close 127.0.0.1:1", "ping")
    bench.point("close is not answered, and may name an address that it was not told", talk.hear(bench.answer), "pong")
    check_socket(bench, one)
    talk.say("x")
    bench.point("a line that no master says ends it, with a status other than 0", talk.wait(bench.patience), is_fault)
    bench.nothing_left("after that", talk)


def check_socket(bench: Bench, address: str) -> None:
    """What it has done to the socket that all workers share."""
    with bench.shared(address) as shared:
        is_blocking = not fcntl.fcntl(shared, fcntl.F_GETFL) & os.O_NONBLOCK
        longest = number_of(shared, BACKLOG_AT)
    bench.point("the shared socket stays non-blocking", is_blocking, False)
    if longest < LEAST_BACKLOG:
        print(f"note   it has called listen with {longest}, which holds for all workers; {LEAST_BACKLOG} is better")


def check_quit(bench: Bench) -> None:
    address, answers = free_address(), []
    talk = bench.ready(address)
    if bench.given.slow:
        connection = asked(address, bench.given.slow, bench.patience)
        reader = threading.Thread(target=lambda: answers.append(line_of(connection)))
        reader.start()
        bench.await_accepted(address)
        talk.say("ping")
        bench.point("it answers the master while it answers a request", talk.hear(bench.answer), "pong")
    talk.say("quit")
    bench.point("quit is answered by gone", talk.hear(bench.patience), "gone")
    bench.point("after gone it ends with status 0", talk.wait(bench.answer), 0)
    bench.point("after gone it says nothing", talk.rest() if talk.process.returncode is not None else b"", b"")
    if bench.given.slow:
        reader.join()
        bench.point("a request that had begun before quit is answered", answers[0], is_answer)
    bench.nothing_left("after quit", talk)


def check_two(bench: Bench) -> None:
    """One worker quits while another one serves the same socket."""
    address, faults, is_over = free_address(), [], threading.Event()
    leaving, staying = bench.ready(address), bench.ready(address)

    def ask() -> None:
        while not is_over.is_set():
            line = first_line(address, bench.given.path, bench.answer)
            if not is_answer(line):
                faults.append(line)

    clients = [threading.Thread(target=ask) for _ in range(CLIENTS)]
    for client in clients:
        client.start()
    time.sleep(0.5)
    leaving.say("quit")
    leaving.wait(bench.patience)
    time.sleep(0.5)
    is_over.set()
    for client in clients:
        client.join()
    bench.point("no request is lost when it quits while another worker serves the socket", faults[:3], [])
    staying.say("quit")
    staying.wait(bench.patience)


def check_ends(bench: Bench) -> None:
    """Ends that nobody tells it of."""
    talk = bench.ready(free_address())
    talk.process.stdin.close()
    bench.point("at the end of input it ends with status 0", talk.wait(bench.patience), 0)
    bench.point("at the end of input it says nothing", talk.rest() if talk.process.returncode is not None else b"", b"")
    bench.nothing_left("after the end of input", talk)
    talk = bench.ready(free_address())
    talk.process.kill()
    talk.process.wait()
    bench.nothing_left("after SIGKILL", talk)
    talk = bench.started(free_address(), go=False)
    talk.process.stdout.close()
    talk.say("go")
    talk.process.stdin.close()
    bench.point("if the master has gone before go, it ends", talk.wait(bench.patience), lambda status: status != RUNS_ON)
    bench.nothing_left("after that", talk)


def check_survival(bench: Bench) -> None:
    """The death of a master where the service lets workers serve on. One that finishes at once is right too."""
    address, place = free_address(), bench.room / "survivors"
    place.mkdir()
    talk = bench.ready(address)
    talk.process.stdin.close()
    deadline = time.monotonic() + bench.patience
    while not (files := [*place.iterdir()]) and talk.process.poll() is None and time.monotonic() < deadline:
        time.sleep(0.02)
    if files:
        names = {file.name for file in files}
        wanted = {f"{bench.name_of(talk.mark)}.{number}" for number in bench.left(talk)}
        bench.point("a survivor makes one file, with its name and the number of its process", len(names & wanted), 1)
        bench.point("it serves on while its file is there", first_line(address, bench.given.path, bench.answer), is_answer)
        for file in files:
            file.unlink()
    else:
        print("note   it does not survive its master: requests wait until workers of the next one have loaded")
    bench.point("a survivor ends with status 0 once its file is gone", talk.wait(bench.patience), 0)
    bench.point("a survivor says nothing", talk.rest() if talk.process.returncode is not None else b"", b"")
    bench.nothing_left("after that", talk)
    place.rmdir()


def check_keeper(bench: Bench) -> None:
    """Addresses that it cannot have."""
    with socket.socket() as taken:
        taken.bind(("127.0.0.1", 0))
        taken.listen()
        talk = bench.started("127.0.0.1:%d" % taken.getsockname()[1])
        bench.point("an address that the keeper refuses: it says nothing", talk.hear(bench.patience), END)
        bench.point("an address that the keeper refuses: its status is not 0", talk.wait(bench.answer), is_fault)
    talk = bench.started(free_address(), keeper=str(bench.room / "none.sock"))
    bench.point("without a keeper it ends before it is ready", talk.hear(bench.patience), END)
    os.kill(bench.keeper.pid, signal.SIGSTOP)
    talk = bench.started(free_address())
    bench.point("if the keeper does not answer, it ends within 20 seconds", talk.hear(20), END)
    os.kill(bench.keeper.pid, signal.SIGCONT)


CHECKS = (check_lines, check_quit, check_two, check_ends, check_survival, check_keeper)


def arguments() -> argparse.Namespace:
    parser = argparse.ArgumentParser(
        prog="prefork-checkworker", description="Checks whether a command is a worker by the convention."
    )
    parser.add_argument("--version", action="version", version=f"prefork-checkworker {VERSION}")
    parser.add_argument("--path", default="/", help="a page that it serves (/)")
    parser.add_argument("--slow", metavar="PATH", help="a page that takes a second or more")
    parser.add_argument("--one", action="store_true", help="tell it one address at a time")
    parser.add_argument("--preload", action="store_true", help="it is a preloader: check it, and the workers that it forks")
    patience = f"how long it may take to load, and to finish ({CHECK_PATIENCE:g})"
    parser.add_argument("--patience", type=float, default=CHECK_PATIENCE, metavar="SECONDS", help=patience)
    parser.add_argument("command", nargs=argparse.REMAINDER, metavar="COMMAND")
    given = parser.parse_args()
    given.command = given.command[1:] if given.command[:1] == ["--"] else given.command
    if not given.command:
        parser.error("no COMMAND")
    return given


def bench_of(given: argparse.Namespace, room: pathlib.Path) -> tuple[Bench, Sequence[Callable[[Any], None]]]:
    """What is checked, and the checks."""
    if not given.preload:
        return Bench(given, room), CHECKS
    from . import checkpreloader as preloaders

    first, last = (preloaders.check_load, preloaders.check_forks), (preloaders.check_end,)
    return preloaders.PreloaderBench(given, room), (*first, *CHECKS, *last)


def main() -> int:
    given = arguments()
    if fault := fault_of(given.command[0]):
        print(f"prefork-checkworker: {fault}", file=sys.stderr)
        return 2
    with tempfile.TemporaryDirectory(prefix="checkworker-") as room:
        bench, checks = bench_of(given, pathlib.Path(room))
        try:
            for check in checks:
                try:
                    check(bench)
                except NotReady:
                    print("note   the points that need a ready worker are left out")
                except NotLoaded:
                    print("note   all other points are left out")
                    break
        finally:
            bench.close()
    if not given.slow:
        print("note   requests in progress are not checked: give --slow PATH")
    print(f"{bench.passed} passed, {bench.failed} failed")
    return 1 if bench.failed else 0

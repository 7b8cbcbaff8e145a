"""What prefork-checkworker checks of a preloader: see docs/workers/preloaders.md. It plays prefork-serve, and each worker
that it checks was forked for a shim."""
import argparse
import os
import pathlib
import signal
import socket
import time
import uuid

from . import places
from .checkworker import Bench, NotLoaded, free_address, is_fault
from .conversation import CHECKED_WORKER, RUNS_ON, Conversation, marked
from .processes import fields_of

CHECKED_QUEUE = 128


def leads_to(process: int | str, number: int | str) -> str:
    """What a descriptor of a process leads to; nothing if it has none of this number."""
    try:
        return os.readlink(f"/proc/{process}/fd/{number}")
    except OSError:
        return ""


def channels(process: int) -> dict[int, str]:
    """The pipes and sockets of a process, by their numbers."""
    try:
        numbers = os.listdir(f"/proc/{process}/fd")
    except OSError:
        return {}
    found = {int(number): leads_to(process, number) for number in numbers}
    return {number: what for number, what in found.items() if what.startswith(("pipe:", "socket:"))}


class PreloaderBench(Bench):
    """A preloader, and workers that it is asked for."""

    def __init__(self, given: argparse.Namespace, room: pathlib.Path):
        super().__init__(given, room)
        (room / "workers").mkdir()
        self.place, self.files = room / "fork.sock", dict[str, pathlib.Path]()
        self.fork_socket = socket.socket(socket.AF_UNIX, socket.SOCK_SEQPACKET)
        self.fork_socket.bind(str(self.place))
        self.fork_socket.listen(CHECKED_QUEUE)
        mark, number = uuid.uuid4().hex, self.fork_socket.fileno()
        environment = {**os.environ, CHECKED_WORKER: mark, "PREFORK_FORK_SOCKET": str(number), "PREFORK_FOLDER": str(room)}
        self.preloader = Conversation(given.command, environment, mark, [number])
        self.talks.append(self.preloader)

    def command(self) -> list[str]:
        return [str(places.SHIM), str(self.place)]

    def more(self, mark: str) -> dict[str, str]:
        """The shim notes the process of its worker in a file."""
        name = f"1.1.{len(self.files)}"
        self.files[mark] = self.room / "workers" / name
        self.files[mark].touch()
        return super().more(mark)

    def name_of(self, mark: str) -> str:
        return self.files[mark].name

    def worker_of(self, talk: Conversation) -> int:
        """The process of a worker that is ready."""
        return int(self.files[talk.mark].read_text().split()[-1])

    def left(self, talk: Conversation) -> list[int]:
        noted = [int(word) for word in self.files[talk.mark].read_text().split()] if talk.mark in self.files else []
        return [*marked(talk.mark), *(number for number in noted if fields_of(number))]

    def comes(self, holds: object) -> bool:
        """Whether a question is answered with yes in time."""
        deadline = time.monotonic() + self.answer
        while not (found := bool(callable(holds) and holds())) and time.monotonic() < deadline:
            time.sleep(0.02)
        return found

    def asks(self) -> str:
        """What a shim is told that leaves then; nothing if it cannot connect."""
        with socket.socket(socket.AF_UNIX, socket.SOCK_SEQPACKET) as shim:
            shim.settimeout(self.answer)
            try:
                shim.connect(str(self.place))
                return shim.recv(200).decode()
            except OSError:
                return ""

    def strange(self, worker: int, other: int) -> list[str]:
        """The descriptors of a worker that are the preloader's own, or those of another worker."""
        ours = (self.preloader.process.stdin, self.preloader.process.stdout, self.fork_socket)
        own = {leads_to("self", one.fileno()): "the preloader" for one in ours}
        shared = leads_to(worker, 2)
        theirs = {what: "another worker" for what in channels(other).values() if what != shared}
        found = {number: what for number, what in channels(worker).items() if what in own | theirs}
        return [f"descriptor {number} of {(own | theirs)[what]}" for number, what in sorted(found.items())]


def check_load(bench: PreloaderBench) -> None:
    said = bench.preloader.hear(bench.patience)
    bench.point("it says loaded, and nothing before", said, "loaded")
    if said != "loaded":
        raise NotLoaded
    bench.point("a shim that connects is told give", bench.asks(), "give")


def check_forks(bench: PreloaderBench) -> None:
    """Two workers, and how they end."""
    process = bench.preloader.process.pid
    before = channels(process)
    first, second = bench.ready(free_address()), bench.ready(free_address())
    said = [bench.preloader.hear(bench.answer) for _ in range(2)]
    bench.point("it says forked for each worker", said, ["forked"] * 2)
    one, other = bench.worker_of(first), bench.worker_of(second)
    bench.point("it has forked them", {fields_of(number)[1] for number in (one, other)}, {str(process)})
    strange = [*bench.strange(one, other), *bench.strange(other, one)]
    bench.point("no worker has a descriptor of the preloader, or of another worker", strange, [])
    os.kill(other, signal.SIGKILL)
    bench.point("the shim of a killed worker ends, with a status other than 0", second.wait(bench.answer), is_fault)
    os.kill(one, signal.SIGSTOP)
    first.process.kill()
    bench.point("a stopped worker ends with its shim", bench.comes(lambda: not fields_of(one)), True)
    bench.nothing_left("after a killed worker", second)
    is_clean = bench.comes(lambda: len(channels(process)) <= len(before))
    bench.point("it keeps no descriptor of a worker that has ended", is_clean, True)


def check_end(bench: PreloaderBench) -> None:
    """The end of its generation, while a worker runs."""
    talk, preloader = bench.ready(free_address()), bench.preloader
    preloader.process.stdin.close()
    bench.fork_socket.close()
    bench.point("at the end of its input it closes the fork socket", bench.comes(lambda: not bench.asks()), True)
    talk.say("ping")
    bench.point("its worker serves on then", talk.hear(bench.answer), "pong")
    bench.point("it stays for its worker", preloader.process.poll(), None)
    talk.say("quit")
    bench.point("it ends after its last worker", preloader.wait(bench.patience), lambda status: status != RUNS_ON)
    bench.nothing_left("after its end", talk)

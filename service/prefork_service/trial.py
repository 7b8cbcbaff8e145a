"""A trial of the next version: one worker of it is started, away from the sockets of the service, heard ready, and ended.

    trial.py CONFIG PLACE SECONDS <COMMANDS

COMMANDS is the file of a generation, as prefork-launch reads it; it is tried for the first worker of each group. The worker
gets as many sockets as its group has addresses: others, on loopback or in a folder of the trial's own. PLACE is the folder in
which programs start. What comes of it is printed for prefork-ctl: notes, and two lines.
"""
import os
import pathlib
import socket
import subprocess
import sys
import tempfile
import time
import tomllib
from typing import Any

from . import places
from .addresses import family_of, text_of
from .configuration import ADDRESSES
from .conversation import Conversation
from .folder import write_private
from .last_lines import LastLines, shown
from .measures import memory_of
from .reasons import Reasons
from .settings import groups_in
from .words import NOTE, TRY

# No generation of a service is called so.
TRIAL_GENERATION = "0.0"
READY_REPORT, FAILED = "done ready", "failed not-ready"
# How long it may take to end.
TRIAL_END_SECONDS = 60.0


def free_port(family: socket.AddressFamily) -> str:
    with socket.socket(family) as one:
        one.bind(("::1" if family == socket.AF_INET6 else "127.0.0.1", 0))
        return text_of(one.getsockname())


def others_for(addresses: list[str], room: pathlib.Path) -> list[str]:
    """As many other addresses, of the same kinds."""
    return [str(room / f"{at}.sock") if one.startswith("/") else free_port(family_of(one)) for at, one in enumerate(addresses)]


class Room:
    """A folder as that of a service, with a keeper."""

    def __init__(self, place: pathlib.Path, number: int, addresses: list[str], commands: bytes):
        self.place, self.number, self.addresses, self.name = place, number, addresses, f"{TRIAL_GENERATION}.{number}"
        for folder in ("commands", "workers"):
            (place / folder).mkdir(parents=True)
        write_private(place / "commands" / "next", os.fsencode(f"{ADDRESSES}={' '.join(addresses)}") + b"\0" + commands)
        self.reasons, self.lines = Reasons(place / "reasons"), LastLines(place / "errors")
        self.path = place / "keeper.sock"
        streams: dict[str, Any] = {"stdin": subprocess.PIPE, "stdout": subprocess.DEVNULL}
        self.keeper = subprocess.Popen([places.KEEPER, self.path], **streams)
        while not self.path.exists() and self.keeper.poll() is None:
            time.sleep(0.01)

    def started(self, start: str) -> Conversation:
        environment = {**os.environ, "PREFORK_KEEPER": str(self.path), "PREFORK_FOLDER": str(self.place), "PREFORK_PLACE": start}
        talk = Conversation([str(places.LAUNCH), "child"], environment)
        talk.say(f"worker {TRIAL_GENERATION} {self.number} {int(time.monotonic())}", *(f"listener {address}" for address in self.addresses), "go")
        return talk

    def why(self) -> list[str]:
        """Why the worker was not ready, and what it said last."""
        lines = self.lines.of([self.name])
        last = lines[self.name][-1].strip() if lines else "it has ended, and has said nothing"
        return [self.reasons.take().get(self.name, last), *shown(lines)]

    def end(self) -> None:
        if self.keeper.stdin:
            self.keeper.stdin.close()
        self.keeper.wait()


def tried(room: Room, start: str, seconds: float) -> tuple[list[str], str]:
    """Starts the worker, waits until it is ready, and ends it; the notes and the report."""
    began, talk = time.monotonic(), room.started(start)
    try:
        said = talk.hear(seconds)
        took = time.monotonic() - began
        if said == "ready":
            notes = [f"ready after {took:.1f} s, with {memory_of(talk.process.pid) / 1e6:.0f} MB"]
            talk.say("quit")
            is_gone = talk.hear(TRIAL_END_SECONDS) == "gone"
            return notes + ([] if is_gone else [f"it has not ended {TRIAL_END_SECONDS:g} s after quit"]), READY_REPORT
        if talk.wait(1.0) not in (0, 1):
            talk.process.kill()
        return room.why() if said else [], FAILED
    finally:
        talk.close()


def first_workers(text: bytes) -> list[tuple[int, list[str]]]:
    """The number of the first worker of each group that has workers, and the addresses of the group."""
    found, number = [], 0
    for count, addresses in groups_in(tomllib.loads(text.decode())):
        if count:
            found.append((number, [str(one) for one in addresses]))
        number += count
    return found


def try_all(config: pathlib.Path, start: str, seconds: float, commands: bytes, place: pathlib.Path) -> tuple[list[str], str]:
    """Tries a worker of each group, one after another, up to one that is not ready; the notes and the report."""
    notes: list[str] = []
    groups = first_workers(config.read_bytes())
    for number, addresses in groups:
        own = place / str(number)
        own.mkdir()
        room = Room(own, number, others_for(addresses or ["127.0.0.1:8080"], own), commands)
        try:
            said, report = tried(room, start, seconds)
        finally:
            room.end()
        begin = f"for {addresses[0]}: " if len(groups) > 1 else ""
        notes += [f"{begin if at == 0 else ''}{note}" for at, note in enumerate(said)]
        if report != READY_REPORT:
            return notes, report
    return notes, READY_REPORT


def main(words: list[str]) -> int:
    config, start, seconds = words[0], words[1], float(words[2])
    with tempfile.TemporaryDirectory(prefix="prefork-try-") as name:
        notes, report = try_all(pathlib.Path(config), start, seconds, sys.stdin.buffer.read(), pathlib.Path(name))
    print("".join(f"{NOTE}{note}\n" for note in notes) + f"word {TRY}\n{report}", flush=True)
    return 0


if __name__ == "__main__":
    sys.exit(main(sys.argv[1:]))

"""The scripts that try the program, side by side in lanes, and what each counted."""
import collections
import os
import pathlib
import re
import signal
import subprocess
import threading
import time
import traceback
from collections.abc import Callable, Iterable
from typing import Any

from gate.processes import Mark
from gate.spare import spare

# The scripts, and what each counts, in the order in which that is told.
SCRIPTS = {
    "cases": "cases",
    "addresses": "texts of addresses",
    "limits": "limits",
    "rehearsals": "rehearsals",
    "terminals": "runs at a terminal",
    "json": "answers as JSON",
    "deployments": "deployments",
    "pictures": "pictures of plans",
    "explorations": "explorations",
    "roundtrips": "round trips and altered transcripts",
    "reader": "runs of a port of the definitions",
    "hostile": "hostile runs",
    "children": "runs of real children",
    "soak": "words of a soak",
    "service": "checks of a web service",
    "mistakes": "checks of what mistakes are told",
    "adapters": "checks of applications as they are",
    "faults": "injected faults",
    "storm": "checks of a storm",
    "package": "checks of the package and of a roll-out",
    "page": "checks of the page and the library",
    "documents": "checks of documents",
    "selftest": "runs of the gate itself",
}
# Needs no program: it begins beside the proofs, once these leave it room, and at the latest once the program is proved.
WITHOUT_PROGRAM = ("selftest",)
# Compares two times that a processor takes, so it runs before what computes.
FIRST = ("json",)
# What mostly waits, for services under load and for real children: the longest first. It begins once the program is
# proved, beside the proofs of tests, and goes before them, as far as the system lets it.
WAITING = ("adapters", "service", "faults", "storm", "page", "children", "mistakes", "package", "soak")
AHEAD = -5
# What computes: first what tells most in a second, and then the longest, so that short ones fill the end. It begins once
# the last proofs of tests leave it room, and gives way to the others, whose loads and time limits are those of an
# operator.
COMPUTING = ("cases", "addresses", "hostile", "rehearsals", "roundtrips", "reader", "limits", "explorations", "documents",
             "terminals", "deployments", "pictures")
NICE = 10
# From this number of processors on, two of those that wait run side by side. On four, two of them have starved each
# other's services: eighteen checks of time failed in one run.
MANY = 8
# For how many seconds the proofs must leave room for a script beside them, and which part of the processors that is.
LOOKS, ROOM = 10, 0.45
# How long scripts may take to end once they are told to.
END_SECONDS = 10.0
# About how many lines of those that failed are said again at the end.
MOST_AGAIN = 60
# The result of a script: how much it counts as passed and as failed.
Counted = tuple[int, int]
# The file beside the scripts with the fewest checks of each, a line for each. Without the file none is expected.
EXPECTED = "expected"


def fewest_in(folder: pathlib.Path) -> dict[str, int]:
    """How many checks each script makes at least: one that makes fewer has lost some."""
    file = folder / EXPECTED
    rows = [line.split() for line in file.read_text().splitlines()] if file.exists() else []
    return {row[0]: int(row[1]) for row in rows if row and not row[0].startswith("#")}


class Lane:
    """Scripts that are run one after another by each of the lane's runners, who then help in another lane, once that
    has begun."""

    def __init__(self, names: Iterable[str], runners: int = 1, nice: int = 0, then: "Lane | None" = None):
        self.left, self.runners, self.nice, self.then = collections.deque(names), runners, nice, then
        self.begun = threading.Event()

    def next(self) -> tuple[str, int] | None:
        """The next script, and how nice it is."""
        try:
            return self.left.popleft(), self.nice
        except IndexError:
            if not self.then:
                return None
        self.then.begun.wait()
        return self.then.next()


def lanes(processors: int) -> list[Lane]:
    """The lanes of what needs the program, on this number of processors: what waits, where that has a lane of its own,
    and what computes."""
    if processors == 1:
        return [Lane([*WAITING, *COMPUTING])]
    computing = Lane(COMPUTING, nice=NICE)
    return [Lane(WAITING, 2 if processors >= MANY else 1, AHEAD, computing), computing]


class Scripts:
    """A run of all scripts: what each counted, how long it took, and what it said if it failed. Where the run is broken
    off, all that they started is ended."""

    def __init__(self, folder: pathlib.Path, program: pathlib.Path, say: Callable[[str], None], processors: int):
        self.folder, self.program, self.say, self.processors = folder, program, say, processors
        *self.waiting, self.computing = lanes(processors)
        self.counted: dict[str, Counted] = {}
        self.fewest = fewest_in(folder)
        self.seconds: dict[str, float] = {}
        self.failed: dict[str, list[str]] = {}
        self.mark, self.telling = Mark("PREFORK_GATE"), threading.Lock()
        self.program_proved, self.proofs_ended, self.is_left_out = threading.Event(), threading.Event(), False
        self.runners: list[threading.Thread] = []

    def __enter__(self) -> "Scripts":
        return self

    def __exit__(self, kind: Any, *_: Any) -> None:
        if kind:
            self.leave_off()
            self.end_all()

    def begin(self) -> None:
        """Runs what needs no program, once the proofs leave room for it or the program is proved."""
        self.run_beside(self.need_no_program)

    def wait_for_room(self, latest: threading.Event) -> None:
        """Waits until about half of the processors are spare, or until this has come."""
        seen = 0
        while seen < LOOKS and not latest.is_set():
            seen = seen + 1 if spare(1.0) >= ROOM * self.processors else 0

    def program_is_proved(self) -> None:
        """Runs what mostly waits, and the others once the proofs leave them room or have ended."""
        if self.program_proved.is_set():
            return
        self.program_proved.set()
        for lane in self.waiting:
            for _ in range(lane.runners):
                self.run_beside(self.go_along, lane)
        self.run_beside(self.compute)

    def all_is_proved(self) -> None:
        """Runs all that does not run yet."""
        self.program_is_proved()
        self.proofs_ended.set()

    def run(self) -> None:
        """Runs all that does not run yet, and waits for all."""
        self.all_is_proved()
        self.join()

    def leave_out(self) -> None:
        """Runs no more of them."""
        self.leave_off()
        self.join()
        for name in SCRIPTS:
            if name not in self.counted:
                self.counted[name], self.failed[name] = (0, 1), ["not run, since not all is proved"]

    def leave_to_others(self) -> None:
        """Runs none of them: another job does."""
        self.leave_off()
        self.counted = dict.fromkeys(SCRIPTS, (0, 0))

    def leave_off(self) -> None:
        """Begins no script any more."""
        self.is_left_out = True
        self.program_proved.set()
        self.proofs_ended.set()
        self.computing.begun.set()

    def run_beside(self, target: Callable[..., None], *given: Any) -> None:
        """Starts a runner."""
        runner = threading.Thread(target=target, args=given, daemon=True)
        self.runners.append(runner)
        runner.start()

    def need_no_program(self) -> None:
        self.wait_for_room(self.program_proved)
        self.go_along(Lane(WITHOUT_PROGRAM))

    def compute(self) -> None:
        """Runs what computes, after what comes first; then others may join."""
        self.wait_for_room(self.proofs_ended)
        self.go_along(Lane(FIRST))
        self.computing.begun.set()
        self.go_along(self.computing)

    def go_along(self, lane: Lane) -> None:
        while (found := lane.next()) is not None and not self.is_left_out:
            self.try_one(*found)

    def join(self) -> None:
        for runner in self.runners:
            runner.join()

    def try_one(self, name: str, nice: int) -> None:
        """Runs a script, and tells what it said."""
        began = time.monotonic()
        try:
            lines, counted = self.heard(name, nice)
        except Exception:
            # (this script fails, and the others go on)
            lines, counted = traceback.format_exc().rstrip().split("\n"), (0, 1)
        if sum(counted) < self.fewest.get(name, 0):
            lines = [*lines, f"{sum(counted)} checks, and {self.fewest[name]} at least are expected (ci/{EXPECTED})"]
            counted = (counted[0], counted[1] + 1)
        self.seconds[name], self.counted[name] = time.monotonic() - began, counted
        if counted[1]:
            self.failed[name] = lines
        with self.telling:
            for line in lines:
                self.say(f"{name}: {line}")

    def heard(self, name: str, nice: int) -> tuple[list[str], Counted]:
        """What a script says of the program, and what it counts."""
        command = [*at_niceness(nice), str(self.folder / name), str(self.program)]
        streams: dict[str, Any] = {"stdin": subprocess.DEVNULL, "stdout": subprocess.PIPE, "stderr": subprocess.STDOUT}
        ended = subprocess.run(command, **streams, errors="replace", env=self.mark.environment())
        lines = ended.stdout.rstrip("\n").split("\n")
        found = re.fullmatch(r"(\d+) passed, (\d+) failed", lines[-1])
        if found and ended.returncode == (found[2] != "0"):
            return lines, (int(found[1]), int(found[2]))
        return lines, (0, 1)

    def end_all(self) -> None:
        """Ends the scripts and all that they have started: by a signal first, so that each can end its own."""
        for number in self.mark.processes():
            try:
                os.kill(number, signal.SIGTERM)
            except ProcessLookupError:
                pass
        self.mark.left(END_SECONDS)
        self.mark.end_all()

    def wrong(self, most: int = MOST_AGAIN) -> list[str]:
        """What was said by those that failed, in a fixed order, and not many more lines than `most`. A script says at its
        end what has failed, so the last lines of each."""
        each = max(1, most // max(1, len(self.failed)))
        return [line for name in SCRIPTS for line in last_of(name, self.failed.get(name, []), each)]

    def took(self) -> str:
        """How long each took."""
        return ", ".join(f"{name} {self.seconds[name]:.0f} s" for name in SCRIPTS if name in self.seconds)

    def counts(self) -> str:
        return "; ".join(f"{what}: {sum(self.counted[name])}" for name, what in SCRIPTS.items())


def last_of(name: str, lines: list[str], most: int) -> list[str]:
    """The last lines of a script, and how many there are above these."""
    above = [f"{name}: ({len(lines) - most} lines more, above)"] if len(lines) > most else []
    return above + [f"{name}: {line}" for line in lines[-most:]]


def at_niceness(nice: int) -> list[str]:
    """The words before a command that runs so; none where that is not allowed."""
    is_allowed = nice >= 0 or os.geteuid() == 0
    return ["nice", "-n", str(nice)] if nice and is_allowed else []

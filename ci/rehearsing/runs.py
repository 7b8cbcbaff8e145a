"""A run of the program under a pattern and turns, and what is wrong with its report."""
import re
from collections.abc import Iterator

from gate.refusing import Repeats
from rehearsing.followed import FAILURES, OLD_FILE, PID_FILE, UPGRADES, Beside, Change, Event, Followed, Group, group_of, service

ENTRY = re.compile(r"(\d+) m(\d+) (\S+)((?: \S+)*) : (\S+)(?: (\S+))?")
REPORT = re.compile(
    r"(done|rolled-back|degraded (?:old|target) \d+(?:,\d+)*) cause (none|\d+) pid (in-place|at-oldbin|oldbin-left)"
)
STATUS = {"done": 0, "rolled-back": 3, "degraded": 4}
WORKER = re.compile(r"process \d+ parent \d+ w(\d+\.\d+)\.(\d+) ready fds (\S+)")


class Run:
    """A run under a pattern and turns, followed call by call."""

    def __init__(self, repeats: Repeats, change: Change, pattern: tuple[Event, ...], turns: str = "") -> None:
        self.change, self.pattern, self.turns = change, pattern, turns
        given = f"turns {turns}\n" if turns else ""
        given += "".join(f"{event.place} {event.what}\n" for event in pattern)
        repeats.give(given.encode())
        self.status, output, errors = repeats.run()
        self.text, self.errors = output.decode(), errors.decode()
        lines = self.text.splitlines()
        self.entries = [found for line in lines if (found := ENTRY.fullmatch(line))]
        self.reports = [found for line in lines if (found := REPORT.fullmatch(line))]
        self.followed = Followed(sum(group.workers for group in change.old))
        self.floors, self.low = dict(change.floors()), list[str]()
        self.next_events = list(self.follow())

    def follow(self) -> Iterator[Event]:
        """Each event that can matter at a call of this run, from that of the pattern's last event on."""
        last = self.pattern[-1] if self.pattern else Event(1, "")
        for entry in self.entries:
            number, verb = int(entry[1]), entry[3]
            about = entry[4].split()
            for event in self.pattern:
                if event.place == number and event.what.startswith("exit "):
                    self.followed.exit(event.what[5:])
                    self.look(number)
            if number >= last.place:
                is_failing = any(event.place == number and event.what.startswith("fail ") for event in self.pattern)
                # After a failure of this call nothing is within its place.
                if not is_failing:
                    leaving = verb == "leave"
                    for name in self.followed.exits():
                        if not (leaving and name == "m2"):
                            yield Event(number, f"exit {name}")
                    for failure in FAILURES.get(verb, ()):
                        yield Event(number, f"fail {failure}")
            self.followed.call(number, verb, about, entry[5])
            self.look(number)

    def beside(self) -> tuple[str | None, int]:
        """What is wrong with the calls that come while both masters act, and the number of the last of them."""
        spawned = next((entry for entry in self.entries if entry[3] == "spawn-master"), None)
        if spawned is None or spawned[5] != "spawned":
            return None, 0
        both = Beside(self.change, self.turns)
        for entry in self.entries[int(spawned[1]) :]:
            if wrong := both.wrong(entry):
                return wrong, 0
            if not both.due:
                return None, int(entry[1])
        return "the run ends before both parts do", 0

    def look(self, number: int) -> None:
        """Notes where too few workers are ready at an address of both services."""
        excused = self.followed.losses + self.followed.excused()
        for address, floor in self.floors.items():
            ready = sum(address in self.change.addresses_of(worker) for worker in self.followed.ready)
            if ready + excused < floor:
                self.low.append(f"{ready} ready at {address} at call {number}, and not {floor} less {excused}")

    def faults(self) -> Iterator[str]:
        """What is wrong with this run."""
        if self.errors or len(self.reports) != 1:
            yield f"no report: {self.errors}"
            return
        report = self.reports[0]
        words = report[1].split()
        cause = None if report[2] == "none" else int(report[2])
        if self.status != STATUS[words[0]]:
            yield f"status {self.status}"
        is_degraded = words[0] == "degraded"
        side = words[1] if is_degraded else "target" if words[0] == "done" else "old"
        generation, groups = self.side(side)
        shortfalls = [int(word) for word in words[2].split(",")] if is_degraded else [0] * len(groups)
        if is_degraded and sum(shortfalls) < 1:
            yield "a shortfall of none"
        if len(shortfalls) != len(groups):
            yield f"{len(shortfalls)} shortfalls of {len(groups)} groups"
        if self.served() != service(generation, groups, shortfalls):
            yield f"the service is {self.served()}"
        yield from self.shares(groups)
        if wrong := self.beside()[0]:
            yield wrong
        yield from self.accounts(words, sum(shortfalls), cause)
        yield from self.low
        yield from self.files(side, report[3])

    def side(self, side: str) -> tuple[str, tuple[Group, ...]]:
        """The generation and the groups of a side."""
        if side == "old":
            return "1.1", self.change.old
        return self.change.generation(), self.change.new

    def shares(self, groups: tuple[Group, ...]) -> Iterator[str]:
        """Which ready workers hold other addresses than those of their groups."""
        for line in self.text.splitlines():
            found = WORKER.fullmatch(line)
            if found:
                held = {hold.split("=")[1] for hold in found[3].split(",") if hold != "none"}
                if held != set(group_of(groups, int(found[2])).addresses):
                    yield f"worker {found[1]}.{found[2]} holds {sorted(held)}"

    def served(self) -> dict[str, dict[str, int]]:
        found: dict[str, dict[str, int]] = {}
        for line in self.text.splitlines():
            words = line.split()
            if words[0] == "service":
                counts = dict(word.split("=") for word in words[2:] if word != "none")
                found[words[1]] = {generation: int(count) for generation, count in counts.items()}
        return found

    def accounts(self, words: list[str], short: int, cause: int | None) -> Iterator[str]:
        failed, lost = len(self.followed.failures), self.followed.losses
        first = min(self.followed.failures + self.followed.returns, default=None)
        if words[0] != "done" and cause is None:
            yield "went back or fell short without a cause"
        if cause is None and first is not None:
            yield f"no cause, though call {first} failed or went back"
        if cause is not None and first is None and not lost:
            yield "a cause, though nothing failed or went back and no worker was lost"
        if cause is not None and first is not None and cause > first:
            yield f"the cause is after call {first}, which failed or went back"
        if words[0] == "degraded" and short + self.change.retries > failed + lost:
            yield f"short by {short} for {failed} failures and {lost} losses"

    def files(self, side: str, note: str) -> Iterator[str]:
        image = "m2" if side == "target" and self.change.word in UPGRADES else "m1"
        rows = [line.split() for line in self.text.splitlines()]
        masters = [(row[1], row[4]) for row in rows if row[0] == "process" and row[5] == "live" and row[4][0] == "m"]
        if [master[1] for master in masters] != [image]:
            yield f"the live masters are {masters}"
            return
        owner = masters[0][0]
        files = {row[1]: row[2] for row in rows if row[0] == "file"}
        is_true = {
            "in-place": files.get(PID_FILE) == owner and OLD_FILE not in files,
            "at-oldbin": files.get(OLD_FILE) == owner,
            "oldbin-left": files.get(PID_FILE) == owner and OLD_FILE in files,
        }
        if not is_true[note]:
            yield f"the note is {note}, and the files are {files}"

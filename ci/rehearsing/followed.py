"""What a change is, and its run followed call by call: which processes there are, what failed and what was lost."""
import collections
import re
from collections.abc import Generator, Iterator, Sequence
from typing import Any, NamedTuple

PID_FILE = "/run/a.pid"
OLD_FILE = PID_FILE + ".oldbin"
# The failures of each call.
FAILURES = {
    "open": ("in-use", "too-many", "denied", "no-memory"),
    "fork": ("again", "no-memory"),
    "await-ready": ("late",),
    "await-gone": ("late",),
    "spawn-master": ("again", "no-memory", "no-image"),
    "adopt": ("refused",),
    "write-pid": ("io-fault",),
    "move-pid": ("io-fault",),
    "remove-pid": ("io-fault",),
    "ask": ("back",),
}
# The words whose plan is an upgrade.
UPGRADES = ("USR2", "USR2 attended")
# The answer of each call that counts as no failure; a census has none.
PLAIN = collections.defaultdict(
    lambda: "ok",
    {
        "open": "opened",
        "fork": "forked",
        "await-ready": "ready",
        "await-gone": "gone",
        "spawn-master": "spawned",
        "adopt": "adopted",
        "alive": "alive",
        "ask": "go",
        "census": "counted",
    },
)
# A worker: its generation and its number.
Worker = tuple[str, str]
# What a master does on its own: each call with what it names, for which it is sent the answer, or what was counted.
Part = Generator[tuple[str, str], Any, None]


class Group(NamedTuple):
    """Addresses, and how many workers serve them."""

    addresses: tuple[str, ...]
    workers: int


class Event(NamedTuple):
    """What happens at a call: an exit just before it, or its failure."""

    place: int
    what: str


class Change(NamedTuple):
    """A word that takes a service from its old groups to the new ones."""

    word: str
    old: tuple[Group, ...]
    new: tuple[Group, ...]
    retries: int

    def generation(self) -> str:
        """The generation of the new workers."""
        return "2.2" if self.word in UPGRADES else "1.2"

    def addresses_of(self, worker: Worker) -> tuple[str, ...]:
        """Where a worker listens."""
        generation, number = worker
        return group_of(self.old if generation == "1.1" else self.new, int(number)).addresses

    def addresses(self) -> Iterator[list[str]]:
        """Where the old service listens, and where the new one does."""
        for groups in (self.old, self.new):
            yield [address for group in groups for address in group.addresses]

    def workers(self) -> Iterator[int]:
        """How many workers the old service has, and how many the new one is to have."""
        for groups in (self.old, self.new):
            yield sum(group.workers for group in groups)

    def floors(self) -> Iterator[tuple[str, int]]:
        """Each address of both services, with the workers that it has or is to have, whichever are fewer."""
        old, new = (service("", groups, [0] * len(groups)) for groups in (self.old, self.new))
        for address in old.keys() & new.keys():
            yield address, min(old[address].get("", 0), new[address].get("", 0))


class Task(NamedTuple):
    """A change under turns, and how many events its runs have at most; only those while both masters act, or all."""

    change: Change
    turns: str
    most: int
    beside: bool


def service(generation: str, groups: Sequence[Group], shortfalls: Sequence[int]) -> dict[str, dict[str, int]]:
    """How many workers serve each address of each group."""
    counts = [(group.addresses, group.workers - short) for group, short in zip(groups, shortfalls)]
    return {address: {generation: count} if count else {} for addresses, count in counts for address in addresses}


def group_of(groups: Sequence[Group], number: int) -> Group:
    """The group of a worker number; one that no group takes is the last one's."""
    for group in groups:
        if number < group.workers:
            return group
        number -= group.workers
    return groups[-1]


def starting(change: Change) -> Part:
    """What the new master does on its own, each call with what it names; each is sent its answer."""
    before, after = change.addresses()
    _, workers = change.workers()
    calls = [("adopt", "")]
    calls += [("close", address) for address in before if address not in after]
    calls += [("open", address) for address in after if address not in before]
    calls += [(verb, f"2.2 {number}") for verb in ("fork", "await-ready") for number in range(workers)]
    for verb, about in calls:
        if (yield verb, about) != PLAIN[verb]:
            return


def mending(change: Change) -> Part:
    """What the old master does meanwhile: it counts its workers, and starts what it lacks."""
    workers, _ = change.workers()
    for left in range(change.retries, -1, -1):
        counted = yield "census", "1.1"
        missing = set(range(workers)) - counted
        if not missing or not left:
            return
        worker = f"1.1 {min(missing)}"
        if (yield "fork", worker) == "forked" and (yield "await-ready", worker) == "late":
            yield "kill", worker


def numbers_in(text: str) -> set[int]:
    """The numbers of a set."""
    runs = [run.split("-") for run in text.split(",") if run != "none"]
    return {number for run in runs for number in range(int(run[0]), int(run[-1]) + 1)}


class Beside:
    """The calls of a run that come while both masters act, held against what each does on its own, and the turns."""

    def __init__(self, change: Change, turns: str) -> None:
        self.parts = {"2": starting(change), "1": mending(change)}
        self.due = {image: next(part) for image, part in self.parts.items()}
        self.turns = list(turns)

    def next_image(self) -> str:
        """Whose call is next. Both parts have not ended."""
        if len(self.due) < 2:
            return next(iter(self.due))
        return "1" if self.turns and self.turns.pop(0) == "o" else "2"

    def wrong(self, entry: re.Match[str]) -> str | None:
        """What is wrong with the next call, if anything is."""
        image = self.next_image()
        verb, about = self.due[image]
        if (entry[2], entry[3]) != (image, verb) or " ".join(entry[4].split()[:2]) != about:
            return f"call {entry[1]} is not m{image} {verb} {about}"
        try:
            self.due[image] = self.parts[image].send(numbers_in(entry[6]) if entry[5] == "counted" else entry[5])
        except StopIteration:
            del self.due[image]
        return None


class Followed:
    """Which processes there are before each call of a run, what failed, what went back and what was lost."""

    def __init__(self, workers: int) -> None:
        self.active = {("1.1", str(number)) for number in range(workers)}
        self.ready = set(self.active)
        self.draining: list[Worker] = []
        self.heir = False
        self.has_left = False
        self.failures: list[int] = []
        self.returns: list[int] = []
        # How many failures there were before the second question was answered 'back'.
        self.before_return: int | None = None
        self.losses = 0

    def excused(self) -> int:
        """The failures after a 'back' to the second question."""
        return 0 if self.before_return is None else len(self.failures) - self.before_return

    def exit(self, name: str) -> None:
        self.end(name)
        self.ready &= self.active

    def end(self, name: str) -> None:
        if name == "m2":
            gone = {worker for worker in self.active if worker[0].startswith("2.")}
            self.losses += len(gone)
            self.active -= gone
            self.heir = False
            return
        generation, _, number = name[1:].rpartition(".")
        worker = (generation, number)
        if name[0] == "w" and worker in self.active:
            self.active.remove(worker)
            self.losses += 1
        elif name[0] == "d" and worker in self.draining:
            self.draining.remove(worker)

    def call(self, number: int, verb: str, about: list[str], answer: str) -> None:
        if answer == "back":
            self.returns.append(number)
            self.before_return = len(self.failures) if about == ["2"] else self.before_return
        elif answer != PLAIN[verb]:
            self.failures.append(number)
        if answer != "master-gone":
            # (a fork may name descriptors after its worker)
            self.change(verb, (about[0], about[1]) if len(about) > 1 else ("", ""), answer)
            self.ready &= self.active

    def change(self, verb: str, worker: Worker, answer: str) -> None:
        if verb == "await-ready" and answer == "ready":
            self.ready.add(worker)
        elif verb == "fork" and answer == "forked":
            self.active.add(worker)
        elif verb == "quit" and worker in self.active:
            self.active.remove(worker)
            self.draining.append(worker)
        elif verb == "kill":
            self.active.discard(worker)
            self.draining = [other for other in self.draining if other != worker]
        elif verb == "await-gone" and answer == "gone":
            self.draining = [other for other in self.draining if other != worker]
        elif verb == "spawn-master" and answer == "spawned":
            self.heir = True
        elif verb == "term-master":
            self.active = {other for other in self.active if not other[0].startswith("2.")}
            self.heir = False
        elif verb == "leave":
            self.has_left = True

    def exits(self) -> list[str]:
        """The exits that change something now."""
        names = [f"w{generation}.{number}" for generation, number in sorted(self.active)]
        names += [f"d{generation}.{number}" for generation, number in sorted(set(self.draining))]
        return names + (["m2"] if self.heir and not self.has_left else [])

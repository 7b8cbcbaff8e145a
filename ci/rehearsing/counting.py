"""How many workers there are in each table of a run, counted by its calls and exits."""
import re
from collections.abc import Iterator

from rehearsing.followed import Change
from rehearsing.runs import Run


def parts(run: Run) -> tuple[int, int]:
    """How many calls the old master makes while both act, and how many the new one."""
    spawned = next((int(entry[1]) for entry in run.entries if entry[3] == "spawn-master"), 0)
    both = [entry[2] for entry in run.entries[spawned : run.beside()[1]]]
    return both.count("1"), both.count("2")


def worker_of(entry: re.Match[str]) -> tuple[str, str]:
    """The generation and the number of the worker that a call names first, if it names one."""
    named = entry[4].split()
    return (named[0], named[1]) if len(named) > 1 else ("", "")


def named_worker(name: str) -> tuple[str, str]:
    """The same of a name such as w1.2.0."""
    generation, _, number = name[1:].rpartition(".")
    return generation, number


def ready_counts(run: Run) -> Iterator[tuple[int, int]]:
    """How many workers are ready in each table of a run, and after how many calls. Each serves all common addresses."""
    ready = {("1.1", str(number)) for number in range(sum(group.workers for group in run.change.old))}
    yield 0, len(ready)
    for entry in run.entries:
        number, verb, about = int(entry[1]), entry[3], worker_of(entry)
        for event in run.pattern:
            if event.place == number and event.what.startswith("exit "):
                name = event.what[5:]
                gone = {it for it in ready if it[0].startswith("2.")} if name == "m2" else {named_worker(name)}
                ready -= gone
                yield number - 1, len(ready)
        if verb == "await-ready" and entry[5] == "ready":
            ready.add(about)
        elif verb in ("quit", "kill"):
            ready.discard(about)
        elif verb == "term-master":
            ready = {it for it in ready if not it[0].startswith("2.")}
        yield number, len(ready)


def exits_with(worker: tuple[str, str, str], name: str) -> bool:
    """Whether a worker, its generation, number and stance, exits where this name does."""
    if name == "m2":
        return worker[0].startswith("2.")
    return worker[2] != "draining" and f"w{worker[0]}.{worker[1]}" == name


def living_counts(run: Run) -> Iterator[tuple[int, int]]:
    """How many workers live in each table of a run, and after how many calls: they start, are ready or drain."""
    living = [("1.1", str(number), "ready") for number in range(sum(group.workers for group in run.change.old))]
    yield 0, len(living)
    for entry in run.entries:
        number, verb, about = int(entry[1]), entry[3], worker_of(entry)
        for event in run.pattern:
            if event.place == number and event.what.startswith("exit "):
                name = event.what[5:]
                living = [it for it in living if not exits_with(it, name)]
                yield number - 1, len(living)
        if verb == "fork" and entry[5] == "forked":
            living.append((*about, "starting"))
        elif verb == "quit":
            living = [(*about, "draining") if it[:2] == about else it for it in living]
        elif verb == "kill" or verb == "await-gone" and entry[5] == "gone":
            living = [it for it in living if it[:2] != about]
        elif verb in ("leave", "term-master"):
            image = "2." if verb == "term-master" else f"{entry[2]}."
            living = [it for it in living if not it[0].startswith(image)]
        yield number, len(living)


def common_addresses(change: Change) -> set[str]:
    old = {address for group in change.old for address in group.addresses}
    new = {address for group in change.new for address in group.addresses}
    return old if change.word == "TTIN" else old & new

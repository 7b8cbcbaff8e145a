"""`rt ci` as `ci/test` runs it: the toolchain's own, with its order of work and none of its verdicts changed.

Like kit.py this depends on the inside of `rt`. It is a file of its own since no verdict rests on it: the ledger's keys
have the sum of kit.py.
"""
import functools
import os
import pathlib
import sys
from collections.abc import Callable
from typing import Any

sys.dont_write_bytecode = True
sys.path.insert(0, str(pathlib.Path(__file__).resolve().parent.parent))

from gate import kit
from gate.tally import PROGRAM

# How much of the memory that the toolchain plans for a check of these crates the largest checks have taken.
TAKEN = 0.75
# Longer than any chain of crates, in lines.
BEFORE_ALL = 1_000_000
# For the allocator of `rattle`, mimalloc: never to give memory back that was freed. By default it does so after a while,
# and takes the same pages again soon after, which the system then has to clear.
ALLOCATOR = {"MIMALLOC_PURGE_DELAY": "-1"}
# From this number of processors on, crates of the longest chains get more jobs: those in a chain that has at least this
# part of the longest one's lines.
MANY, NEAR = 4, 0.85

# What `rt ci` carries out, by the crate and what is done of it: what it waits for, how many lines it has, and more.
Key = tuple[str, str]
Task = tuple[Any, ...]
Tasks = dict[Key, Task]


def listed_once(below: Callable[[Any], list[Any]]) -> Callable[[Any], list[Any]]:
    """The libraries below a crate: the toolchain goes along each way down to each of them, whenever it asks."""

    def below_once(crate: Any) -> list[Any]:
        # (a crate asks only once it has read what it uses)
        if not hasattr(crate, "all_below"):
            crate.all_below = below(crate)
        return [*crate.all_below]

    return below_once


def as_measured(need: Callable[..., float]) -> Callable[..., float]:
    """The memory that a check is likely to take. While it was planned as larger, large checks waited for room that they
    did not take, and smaller ones that nothing waits for went before them."""
    return lambda *given: TAKEN * need(*given)


def chains(tasks: Tasks, last: Key) -> dict[Key, int]:
    """For each proof, the lines of the longest chain of proofs that leads through it to the last one."""
    before, above = dict[Key, int](), {last: 0}
    # (a task comes after those that it waits for)
    for key, (waits, lines, *_) in tasks.items():
        before[key] = lines + max((before[it] for it in waits), default=0)
    for key in reversed([*tasks]):
        waits, lines, *_ = tasks[key]
        for it in waits if key in above else ():
            above[it] = max(above.get(it, 0), lines + above[key])
    return {key: before[key] + above[key] for key in above}


def with_jobs(task: Task, least: int) -> Task:
    """A task whose proof gets this number of jobs at least."""
    *rest, prove = task
    return (*rest, lambda given, jobs: prove(given, max(jobs, least)))


def with_first(name: str, in_lanes: Callable[[Tasks], Any]) -> Callable[[Tasks], Any]:
    """Tasks in lanes, of which the proof of a crate and all that it waits for come first: the scripts wait for it. It
    gets a job for each processor: with one, and tests beside it, it took nine minutes. Where there are many processors,
    a crate of the longest chains below it gets two: with one, the program was proved at minute 41 of 47."""

    def lanes(tasks: Tasks) -> Any:
        first, found = (name, "proof"), kit.processors()
        if first in tasks:
            through = chains(tasks, first) if found >= MANY else {}
            for key, lines in through.items():
                if lines >= NEAR * through[first]:
                    tasks[key] = with_jobs(tasks[key], 2)
            waits, lines, *rest = with_jobs(tasks[first], found)
            tasks[first] = (waits, lines + BEFORE_ALL, *rest)
        return in_lanes(tasks)

    return lanes


def main() -> int:
    rt = kit.rt
    for name, value in ALLOCATOR.items():
        os.environ.setdefault(name, value)
    rt.rtlib.Crate.below = listed_once(rt.rtlib.Crate.below)
    changes: dict[str, Callable[[Any], Any]] = {"need": as_measured, "in_lanes": functools.partial(with_first, PROGRAM.name)}
    for name, changed in changes.items():
        # (another kit may have no such function)
        if hasattr(rt, name):
            setattr(rt, name, changed(getattr(rt, name)))
    return int(rt.main(["ci", *sys.argv[1:]]))


if __name__ == "__main__":
    sys.exit(main())

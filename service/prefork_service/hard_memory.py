"""Workers that take more memory than they may (`hard_memory`): prefork-watch kills them at once, and the next tick starts others.

A worker has the limit of the configuration that it was started with: one that a reload has told to finish does so under its own.
PSS costs the system some milliseconds to add up for a large process. So the memory that a process has mapped (RSS), which is never
less and costs nothing, is looked at first. All of it takes the part of a processor that statistics may take.
"""
import os
import pathlib
import signal
import time
from collections.abc import Callable
from typing import Any

from .counted import started_workers
from .folder import content_of, say
from .leaving import start_of
from .measures import SHARE, memory_of, tree_of
from .overdue import REASON as OVERDUE
from .processes import descends
from .sizes import shown

# The least time between two looks.
LEAST_SECONDS = 1.0
PAGE = os.sysconf("SC_PAGE_SIZE")
# How a reason begins, after the name of the worker.
MEMORY_REASON = "has passed hard_memory: "
# What can be passed, and what its reason has in it.
REASONS_OF_LIMITS = {"hard_memory": MEMORY_REASON, "request_timeout": OVERDUE}
GuardedWorker = tuple[str, int]
SomeLimits = list[list[int]]


def resident_of(process: int) -> int:
    """The bytes that a process and those that it has started have in memory; what they share counts for each (RSS)."""
    total = 0
    for one in tree_of(process):
        words = (content_of(pathlib.Path(f"/proc/{one}/statm")) or b"").split()
        total += int(words[1]) * PAGE if len(words) > 1 else 0
    return total


def limit_of(limits: SomeLimits, number: int) -> int:
    """The limit of a worker, by its number; 0 if it has none. Each limit is for the workers up to a number."""
    return next((size for last, size in limits if number <= last), 0)


class Limits:
    """The limits of each generation that has workers: those that it was started with."""

    def __init__(self) -> None:
        self.known = dict[str, SomeLimits]()
        self.of_others: SomeLimits = []

    def take(self, told: dict[str, Any]) -> None:
        """Takes what the core tells: the generation that runs with its limits, and those of the next one while it starts."""
        running, now = told["generation"], told["limits"]
        self.known |= {running: now} if running else {}
        # Of a generation that nobody has heard of: it starts, or it finishes since before this process began.
        self.of_others = told["next"] or ([] if running else now)
        if not self.are_there():
            # Nobody looks which generations have ended.
            self.known = {running: now}

    def of(self, worker: GuardedWorker) -> int:
        return limit_of(self.known.get(worker[0], self.of_others), worker[1])

    def are_there(self) -> bool:
        return any(size for limits in (*self.known.values(), self.of_others) for _, size in limits)

    def seen(self, generations: set[str]) -> None:
        """Remembers the limits of what starts, and forgets those of generations that have no worker."""
        self.known = {generation: self.known.get(generation, self.of_others) for generation in generations}


class Guard:
    """Looks at the memory of workers, and kills those that have passed their limit."""

    def __init__(self, folder: pathlib.Path, service: int, kill: Callable[[int, int], bool] | None = None):
        self.folder, self.service, self.next = folder, service, 0.0
        self.kill, self.limits = kill or killed, Limits()
        # Those that were killed, by their process and its start: one with much memory takes a while to end.
        self.ending: set[tuple[int, str]] = set()

    def tend(self, told: dict[str, Any]) -> list[str]:
        """Looks, if it is time to; the workers that were killed."""
        self.limits.take(told)
        if time.monotonic() < self.next or not self.limits.are_there():
            return []
        # (the time of this process alone: on a busy machine it is looked as often)
        began = time.process_time()
        workers = started_workers(self.folder / "workers", self.service)
        self.limits.seen({generation for generation, _ in workers})
        found = [name for worker, process in workers.items() if (name := self.look(worker, process, self.limits.of(worker)))]
        self.next = time.monotonic() + max(LEAST_SECONDS, (time.process_time() - began) / SHARE)
        return found

    def look(self, worker: GuardedWorker, process: int, limit: int) -> str:
        """Kills a worker that has passed a limit; its name, if that is so."""
        if not limit or resident_of(process) <= limit:
            return ""
        size, one = memory_of(process), (process, start_of(process))
        name = f"{worker[0]}.{worker[1]}"
        if size <= limit or one in self.ending or not self.kill(process, self.service):
            return ""
        self.ending = {other for other in self.ending if start_of(other[0]) == other[1]} | {one}
        why = f"{MEMORY_REASON}it has taken {shown(size)}, and {shown(limit)} is allowed. It is killed"
        say(f"worker {name} {why}")
        self.note(f"{name} {why}")
        return name

    def note(self, text: str) -> None:
        """Notes the reason, as workers do: the block in which its end is found has it."""
        try:
            file = os.open(self.folder / "reasons", os.O_WRONLY | os.O_APPEND | os.O_CLOEXEC)
        except OSError:
            return
        try:
            os.write(file, f"{text}\n".encode())
        except OSError:
            pass
        finally:
            os.close(file)


def killed(process: int, service: int) -> bool:
    """Kills a process of a service by a descriptor of it, so that no other one is hit that has its number by then."""
    start = start_of(process)
    try:
        opened = os.pidfd_open(process)
    except OSError:
        return False
    try:
        is_own = bool(start) and start_of(process) == start and descends(process, service)
        if is_own:
            signal.pidfd_send_signal(opened, signal.SIGKILL)
        return is_own
    except OSError:
        return False
    finally:
        os.close(opened)


def passed(noted: dict[str, Any]) -> dict[str, int]:
    """How many of those that have noted a reason have passed which limit."""
    return {name: sum(str(why).startswith(reason) for why in noted.values()) for name, reason in REASONS_OF_LIMITS.items()}

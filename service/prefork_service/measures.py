"""What processes take: processor time, and memory by shares of what they have in common with others."""
import re
import time
from collections.abc import Mapping
from typing import NamedTuple

from .ages import TICKS
from .processes import children_of, fields_of, line_of

# The least time between two measures, and which part of a processor they may take.
MEASURE_SECONDS, SHARE = 2.0, 0.001
PSS = re.compile(r"^Pss:\s+(\d+) kB$", re.M)


def tree_of(process: int) -> list[int]:
    """A process and those that it has started, and so on."""
    found = [process]
    for one in found:
        found += [child for child in children_of(one) if child not in found]
    return found


def memory_of(process: int) -> int:
    """The bytes of a process and of those that it has started. What is shared counts in part (PSS)."""
    total = 0
    for one in tree_of(process):
        try:
            found = PSS.search(line_of(f"/proc/{one}/smaps_rollup"))
        except OSError:
            # It has ended, or belongs to another user.
            continue
        total += int(found[1]) * 1024 if found else 0
    return total


def processor_seconds_of(process: int) -> float:
    """The time that a process has computed, and those that it has started and that run or were waited for."""
    total = 0.0
    for one in tree_of(process):
        total += sum(map(int, fields_of(one)[11:15])) / TICKS
    return total


class Measure(NamedTuple):
    """The bytes of a process and the seconds that it has computed, and since when it runs: another one may have its number."""

    since: float
    memory: int
    processor_seconds: float


class Measures:
    """The memory and the processor time of processes. To measure costs time itself: so what was measured last is told until
    that is worth it again."""

    def __init__(self) -> None:
        self.found: dict[int, Measure] = {}
        self.next, self.moment = 0.0, 0.0

    def of(self, processes: Mapping[int, float]) -> dict[int, Measure]:
        """The measure of each process, as far as there is one. `processes` says since when each of them runs."""
        now = time.monotonic()
        is_new = any(not self.is_of(process, since) for process, since in processes.items())
        if now >= self.next or is_new and now - self.moment >= MEASURE_SECONDS:
            self.found = {
                process: Measure(since, memory_of(process), processor_seconds_of(process)) for process, since in processes.items()
            }
            self.moment, took = now, time.monotonic() - now
            self.next = now + max(MEASURE_SECONDS, took / SHARE)
        return {process: self.found[process] for process, since in processes.items() if self.is_of(process, since)}

    def is_of(self, process: int, since: float) -> bool:
        """Whether this very process was measured."""
        found = self.found.get(process)
        return found is not None and found.since == since

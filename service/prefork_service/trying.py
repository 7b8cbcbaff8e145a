"""Workers that fail to start, and when each is tried again: after 1, 2, 4, .. and at most 60 seconds.

A tick has the master start all workers that are missing, and some of them again and again. So prefork-launch is told
which of them wait: the folder `waiting` has a file for each, named by the worker's number. Such a worker is not started,
unless there is a file `NUMBER.once` too, which allows one start. Workers that fail for the same reason are tried by one of
them; once that is ready, the others follow at the next tick. All that fail have few tries together, also where each has a
reason of its own. A word of an operator tries all at once.
"""
import dataclasses
import pathlib
import random
import re
import shutil
from typing import Any

from .blocks import block_of
from .state import MOST_NAMED, times
from .ticks import IN_TIMEOUT

FIRST_SECONDS, MOST_SECONDS, JITTER = 1.0, 60.0, 0.25
# How many tries all workers together have in a row, and how often there is another one: 48 in ten minutes.
MOST_TRIES, EACH_SECONDS = 8.0, 15.0
NUMBERS = re.compile(r"0x[0-9a-fA-F]+|\d+")
MEANT = {"again": "fork: again: no process or descriptor was left (ulimit -u, ulimit -n, TasksMax=)"}


class Budget:
    """The tries that are left. They come back by and by."""

    def __init__(self) -> None:
        self.left, self.moment = MOST_TRIES, 0.0

    def renew(self, now: float) -> None:
        """(more than that were given to workers of which one was ready by then)"""
        self.left = max(self.left, min(MOST_TRIES, self.left + (now - self.moment) / EACH_SECONDS))
        self.moment = now

    def seconds(self, now: float) -> float:
        """How long until there is one."""
        self.renew(now)
        return max(0.0, 1.0 - self.left) * EACH_SECONDS


def seconds_after(tries: int, chance: float) -> float:
    """How long after this number of failed tries there is no other one; `chance` is from 0 to 1."""
    return min(MOST_SECONDS, FIRST_SECONDS * 2.0 ** min(tries - 1, 16) * (1 + JITTER * chance))


@dataclasses.dataclass
class Failing:
    """A worker that does not start: how often it has failed, why the last time, and the moments of its last and of its
    next try."""

    failed: int
    reason: str
    tried: float
    due: float

    @property
    def kind(self) -> str:
        """What workers have in common that fail for the same reason."""
        return NUMBERS.sub("N", self.reason)


class Trying:
    """The workers that fail to start."""

    def __init__(self, place: pathlib.Path, chance: random.Random | None = None):
        self.place, self.chance = place, chance or random.Random()
        self.failing: dict[int, Failing] = {}
        # How often workers that fail for a reason were tried; which starts are allowed; failed starts of all time.
        self.tries: dict[str, int] = {}
        self.allowed: dict[int, int] = {}
        self.total, self.is_marked = 0, False
        self.budget = Budget()

    # Ticks.

    def wants_tick(self, missing: int, is_lost: bool, since_tick: float, timeout: float, now: float) -> bool:
        """Whether a tick would do more than to try again what has failed: a worker is missing that has not failed, or one
        has ended, or one that fails is due, or the beats of the others have not been asked for too long."""
        if not self.failing or is_lost or missing > len(self.failing):
            return True
        is_due = any(one.due <= now for one in self.failing.values()) and not self.budget.seconds(now)
        return is_due or since_tick >= timeout / IN_TIMEOUT

    def begin_tick(self, now: float) -> None:
        """Marks the workers that wait, and allows one start of each that is tried."""
        due = sorted((one.tried, number) for number, one in self.failing.items() if one.due <= now)
        chosen: set[int] = set()
        self.budget.renew(now)
        for _, number in due:
            if self.budget.left < 1:
                break
            # All, if one of them was ready since the last of them has failed; or else the one that has waited longest.
            kind = self.failing[number].kind
            if kind not in self.tries or kind not in {self.failing[other].kind for other in chosen}:
                chosen.add(number)
                self.budget.left -= 1
        self.allowed = {number: int(number in chosen) for number in self.failing}
        self.mark()

    def begin_word(self, now: float) -> None:
        """A word is carried out: nothing waits, and what still fails is tried at the next tick."""
        self.allowed = {}
        self.try_all(now)
        self.unmark()

    def try_all(self, now: float) -> None:
        """All that fail are due."""
        for one in self.failing.values():
            one.due = now
        self.tries.clear()
        self.give_all()

    def give_all(self) -> None:
        """Somebody mends what fails: each worker may be tried."""
        self.budget.left = max(MOST_TRIES, self.budget.left, len(self.failing))

    def mark(self) -> None:
        """Tells prefork-launch. Where that can't be written the master starts what it wants to."""
        self.unmark()
        if not self.allowed:
            return
        try:
            self.place.mkdir(mode=0o700, exist_ok=True)
            self.is_marked = True
            for number, count in self.allowed.items():
                if count:
                    (self.place / f"{number}.once").touch()
                (self.place / str(number)).touch()
        except OSError:
            self.allowed = {}
            self.unmark()

    def unmark(self) -> None:
        if self.is_marked:
            shutil.rmtree(self.place, ignore_errors=True)
            self.is_marked = False

    # What blocks say.

    def note(self, block: str, reasons: dict[str, str], now: float) -> None:
        """Takes the block of a tick, or of a start: which workers have failed to start in it, and which have not."""
        tried: set[str] = set()
        left = dict(self.allowed)
        for call in block_of(block).calls:
            number = call.worker
            if call.kind not in ("fork", "await-ready") or number is None:
                continue
            if call.answer == "ready":
                self.succeed(number, now)
            elif not call.is_plain and left.get(number, 1):
                if number in left:
                    left[number] -= 1
                tried.add(self.fail(number, reasons.get(call.name, MEANT.get(call.answer, f"{call.kind}: {call.answer}")), now))
        for kind in tried:
            self.put_off(kind, now)

    def fail(self, number: int, reason: str, now: float) -> str:
        """A start has failed; the kind of its reason."""
        before = self.failing.get(number)
        self.total += 1
        one = Failing(before.failed + 1 if before else 1, reason, now, now)
        if before and before.kind != one.kind:
            self.tries[one.kind] = max(self.tries.get(one.kind, 0), self.tries.get(before.kind, 0))
        self.failing[number] = one
        return one.kind

    def put_off(self, kind: str, now: float) -> None:
        """Workers that fail for a reason are tried again later."""
        self.tries[kind] = self.tries.get(kind, 0) + 1
        due = now + seconds_after(self.tries[kind], self.chance.random())
        for one in self.failing.values():
            if one.kind == kind:
                one.due = due

    def succeed(self, number: int, now: float) -> None:
        """A worker is ready: those that failed for the reason of its last failure are due."""
        before = self.failing.pop(number, None)
        if not before:
            return
        self.tries.pop(before.kind, None)
        self.give_all()
        for one in self.failing.values():
            if one.kind == before.kind:
                one.due = now

    def forget_others(self, wanted: int, counted: list[int]) -> None:
        """Forgets those that run by now, or are not wanted any more."""
        self.failing = {
            number: one for number, one in self.failing.items() if number < wanted and number not in counted
        }
        if not self.failing:
            self.tries.clear()

    # What is told.

    def why(self) -> str:
        """Which workers do not start, how often they have failed, and why the last time."""
        named = sorted(self.failing.items())
        kinds: dict[str, list[int]] = {}
        for number, one in named:
            kinds.setdefault(one.kind, []).append(number)
        found = []
        for numbers in list(kinds.values())[:MOST_NAMED]:
            count, last = sum(self.failing[number].failed for number in numbers), self.failing[numbers[0]].reason
            told = ", ".join(map(str, numbers[:MOST_NAMED])) + (f" and {len(numbers) - MOST_NAMED} more" if numbers[MOST_NAMED:] else "")
            found.append(f"worker{'s' if len(numbers) > 1 else ''} {told} {'have' if len(numbers) > 1 else 'has'} failed "
                         f"{times(count)}, last: {last}")
        return "; ".join(found)

    def as_json(self, now: float) -> list[dict[str, Any]]:
        """The workers that fail, each with the moment of its next try."""
        least = self.budget.seconds(now)
        return [
            {"worker": number, "failed": one.failed, "reason": one.reason, "due": round(max(now + least if least else 0.0, one.due), 1)}
            for number, one in sorted(self.failing.items())
        ]

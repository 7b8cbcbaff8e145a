"""Checks of when the checks of edits run, on a process in the place of a prover, and on times that are made up."""
import pathlib
import subprocess
import threading
import time
from collections.abc import Callable, Iterator
from unittest import mock

from gate import kit
from gate.edits import CHECK_MEMORY, Turns
from gate.giving_way import checks, give_way
from gate.waiting import comes

# Only what hangs reaches this: a check has the lowest priority, so beside proofs it may hardly run for a while.
SECONDS = 600.0
PAUSE = 0.05


class Times:
    """Times of processors: how many are spare, and how many threads wait for one."""

    def __init__(self) -> None:
        self.spare, self.waiting = 0.0, 0.0
        self.turns = Turns(None, self.looked(lambda: self.spare), self.looked(lambda: self.waiting))

    @staticmethod
    def looked(value: Callable[[], float]) -> Callable[[float], float]:
        def look(_: float) -> float:
            time.sleep(PAUSE)
            return value()

        return look


def states() -> set[str]:
    """The states of the processes of checks: T where one is stopped."""
    found = set()
    for number in checks():
        try:
            found.add(pathlib.Path(f"/proc/{number}/stat").read_text().rpartition(")")[2].split()[0])
        except OSError:
            continue
    return found


def begins_late(times: Times) -> Iterator[str]:
    """Beside proofs a check begins only where a processor is spare, and then no second one does."""
    begun = []
    runners = [threading.Thread(target=lambda: begun.append(times.turns.begin()), daemon=True) for _ in range(2)]
    for runner in runners:
        runner.start()
    if comes(lambda: begun, 0.5):
        yield "a check begins where no processor is spare"
    times.spare = 1.0
    if not comes(lambda: begun, SECONDS) or comes(lambda: len(begun) > 1, 0.5):
        yield f"{len(begun)} checks begin where a processor is spare"
    times.turns.proofs_ended(2)
    if not comes(lambda: len(begun) == 2, SECONDS):
        yield "no second check begins after the proofs"


def stops_and_goes_on(times: Times) -> Iterator[str]:
    """A check is stopped while others wait for a processor, and goes on once one is spare, or the proofs have ended."""
    turns, times.spare = times.turns, 1.0
    threading.Thread(target=turns.watch, daemon=True).start()
    turns.begin()
    with subprocess.Popen([*kit.rt.rtlib.guarded(), "sh", "-c", "sleep 36000 & wait"]):
        for what, spare, waiting, wanted in (("begins", 1.0, 0.0, {"S"}), ("waits", 0.0, 2.0, {"T"}),
                                             ("goes on", 1.0, 0.0, {"S"}), ("waits again", 0.0, 2.0, {"T"})):
            times.spare, times.waiting = spare, waiting
            if not comes(lambda: len(checks()) == 2 and states() == wanted, SECONDS):
                yield f"it {what}, and is in the states {states()}"
        turns.proofs_ended(2)
        if not comes(lambda: states() == {"S"}, SECONDS):
            yield f"the proofs have ended, and it is in the states {states()}"
        for number in checks():
            subprocess.run(["kill", "-9", str(number)], check=False)


CHECKS: tuple[Callable[[Times], Iterator[str]], ...] = (begins_late, stops_and_goes_on)


def faults(check: Callable[[Times], Iterator[str]]) -> list[str]:
    """What a check finds wrong. Memory is made up, too: proofs may have taken it."""
    with mock.patch.object(kit, "free_memory", lambda: CHECK_MEMORY):
        return [f"a check of edits {check.__name__}: {fault}" for fault in check(Times())]


def all_faults() -> Iterator[list[str]]:
    give_way()
    for check in CHECKS:
        yield faults(check)

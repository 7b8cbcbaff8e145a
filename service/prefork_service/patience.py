"""How long a master may owe the block of a word. One that hangs is killed, and started again; a stop has its end.

A master limits how long its workers may keep it waiting, and nothing limits the master itself: it may be stopped, or hang.
A word starts workers, and each start may take its time. So the time is counted from the last start of a worker on.
"""
import os
import pathlib
import signal
import time

from typing import TYPE_CHECKING

from .blocks import block_of
from .folder import files_in, say
from .bounds import ANSWER_WITHIN, end_seconds
from .processes import fields_of, masters_of
from .words import AT_ONCE, ATTENDED, STOPS, Word

if TYPE_CHECKING:
    from .service import Service

UPGRADES = ("USR2", ATTENDED)

# How many answers in a row a tick, and any other word, may wait for, and how much longer a busy machine may take.
OF_TICK, OF_WORD, MARGIN = 2, 4, 10.0
# What a turn of the loop counts at most: while the whole machine is stopped no time passes.
MOST_TURN = 5.0


class Patience:
    """The time that the current word has taken, and may take."""

    def __init__(self, workers: pathlib.Path):
        """The folder in which each worker that starts has a file."""
        self.workers = workers
        self.answer, self.ready = 0.0, 0.0
        self.spent, self.last, self.is_short, self.newest = 0.0, 0.0, False, 0.0

    def take_limits(self, limits: list[str]) -> None:
        """The limits of the master that runs; without one there is none for it either."""
        self.answer = float(limits[1]) if limits[:1] == [ANSWER_WITHIN] else 0.0
        self.ready = float(end_seconds(limits))

    def begin(self, is_short: bool) -> None:
        """A word begins; a short one starts no worker, unless one is missing."""
        self.spent, self.last, self.is_short, self.newest = 0.0, time.monotonic(), is_short, self.last_start()

    def last_start(self) -> float:
        """When a worker was started last, by the clock on the wall."""
        found = [0.0]
        for file in files_in(self.workers):
            try:
                found.append(file.stat().st_mtime)
            except OSError:
                pass
        return max(found)

    def seconds(self) -> float:
        """How long the word may take from now on, or from the last start of a worker."""
        answers = OF_TICK if self.is_short else OF_WORD
        return answers * self.answer + MARGIN + (0.0 if self.is_short else self.ready)

    def spend(self) -> bool:
        """Counts a turn; whether the master owes the block for too long."""
        now = time.monotonic()
        self.spent, self.last = self.spent + min(now - self.last, MOST_TURN), now
        if not self.answer or self.spent <= self.seconds():
            return False
        started = self.last_start()
        if started == self.newest:
            return True
        # A worker was started meanwhile, and has its time to be ready.
        self.newest, self.is_short, self.spent = started, False, 0.0
        return False


class Hanging:
    """Kills a master that hangs."""

    def __init__(self, service: "Service"):
        self.service, self.patience = service, Patience(service.folder.workers)
        # How many masters there were before the current word, and the newest of them.
        self.masters, self.newest, self.is_upgrade = 1, 0, False

    def begin(self) -> None:
        """The current word begins."""
        word = self.service.current
        was_upgrade, self.is_upgrade = self.is_upgrade, bool(word and word.text in UPGRADES)
        if self.service.master and (was_upgrade or self.is_upgrade):
            masters = masters_of(self.service.master.process.pid)
            self.masters, self.newest = len(masters), masters[-1]
        self.patience.begin(self.service.is_ticking())

    def tend(self) -> None:
        """Kills a master that owes its block for too long: the new one of an upgrade alone, if there is one."""
        service = self.service
        if not service.current or service.is_stopped or not service.master:
            return
        if service.question or service.reading.owes:
            # Its operator may take any time; and a word whose configuration is still read was not told.
            self.patience.begin(False)
            return
        if not self.patience.spend():
            return
        word, first, seconds = service.current.text, service.master.process.pid, self.patience.seconds()
        is_new = word in UPGRADES and kill_masters(first, self.masters) > 0
        hung = f"{word}: {'the new master' if is_new else 'the master'} has not answered within {seconds:g} s, and is killed"
        say(hung)
        service.barrier.duty(service.chronicle.journal.note, hung)
        # The old master takes the upgrade back, which needs no worker that starts.
        self.patience.begin(is_new)
        if word in STOPS or service.waiting.stops:
            self.end_by_force()
        elif not is_new:
            kill_masters(first)

    def lost_master(self, block: str, generation: str) -> str:
        """Says which new master a lost block tells of, if it runs no longer."""
        named = [call.image for call in block_of(block).calls] or [int(generation.split(".")[0] or 1)]
        others = masters_of(self.service.master.process.pid)[1:]
        has_ended = not others or not self.is_upgrade and self.masters > 1 and self.newest not in others
        return f"the new master m{max(named)} has ended" if max(named) > 1 and has_ended else ""

    def finish(self) -> None:
        """Waits for the end of a master that has stopped its workers."""
        patience, service = self.patience, self.service
        seconds = patience.ready + patience.answer + MARGIN if patience.answer else None
        has_ended = service.barrier.duty(service.master.finish, seconds)
        if has_ended is False:
            self.end_by_force()
        elif has_ended is None:
            service.master.process.kill()

    def end_by_force(self) -> None:
        """A stop takes too long: everything is killed."""
        service, word = self.service, self.service.current
        said = "the service was told to stop, and its master hangs: everything is killed"
        service.status_of_end = 1
        service.barrier.duty(service.note, said)
        kill_masters(service.release_master().process.pid)
        service.stopping.begin(Word(AT_ONCE), False)
        if word:
            word.answer(f"lost: {said}\n")


def kill_masters(first: int, spares_old: int = 0) -> int:
    """Kills the masters that a first one has led to, the newest first, but for some old ones; how many."""
    masters = masters_of(first)[spares_old:]
    for process in reversed(masters):
        kill_master(process, first)
    return len(masters)


def kill_master(process: int, first: int) -> None:
    """Kills a master, unless it has ended and another process has its number by now."""
    try:
        opened = os.pidfd_open(process)
    except OSError:
        return
    try:
        if process == first or fields_of(process) and process in masters_of(first):
            signal.pidfd_send_signal(opened, signal.SIGKILL)
    except OSError:
        pass
    finally:
        os.close(opened)

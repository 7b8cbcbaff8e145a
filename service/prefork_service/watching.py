"""What is wanted of a service beside what runs: looked at all the while, and told where it has changed."""
import time

from .changed import Changed
from .folder import Folder
from .state import News, Whole, whole_of
from .counted import Record, started_workers
from .ticks import pause_of
from .trying import Trying
from .words import is_routine, is_tick


class Watching:
    """The workers that are wanted, those that were counted last, those of them that run, and those that fail to start."""

    def __init__(self, folder: Folder):
        self.folder, self.record, self.news = folder, Record(), News()
        self.trying, self.changed = Trying(folder.path / "waiting"), Changed(folder.path)
        # How many of the workers that were counted run, which have ended since (one that is started in their place counts with
        # the next block), and when it is looked again.
        self.running, self.ended, self.next_look = 0, set[int](), 0.0
        self.is_started, self.timeout = False, 60
        # How many workers of a master that has died serve on.
        self.survivors = 0

    def begin_master(self, wanted: int, timeout: int) -> None:
        """A master is started, which has counted nobody yet."""
        self.record.forget_workers()
        self.record.wanted, self.timeout, self.next_look, self.ended = wanted, timeout, 0.0, set()
        self.trying.begin_word(time.monotonic())

    def begin(self, word: str) -> None:
        """A word is told to the master."""
        if is_routine(word):
            self.trying.begin_tick(time.monotonic())
        else:
            self.trying.begin_word(time.monotonic())

    def end(self, word: str, block: str, reasons: dict[str, str]) -> None:
        """Takes a block, and why workers have ended in it."""
        self.record.note(block)
        self.is_started, self.next_look, self.ended = True, 0.0, set()
        if is_tick(word):
            self.trying.note(block, reasons, time.monotonic())
        self.trying.forget_others(self.record.wanted, self.record.workers)
        # What a start that fails writes itself, such as a log, is no news.
        self.changed.take(self.failing())
        self.look()

    def look(self, is_lost: bool = False) -> None:
        """Counts the workers that run: once in a while, and where one may have ended."""
        now = time.monotonic()
        if now < self.next_look and not is_lost:
            return
        self.next_look = now + self.pause()
        if self.changed.look(self.failing()):
            # Somebody mends what has failed.
            self.trying.try_all(now)
        found = started_workers(self.folder.workers)
        self.ended |= {number for number in self.record.workers if (self.record.generation, number) not in found}
        self.running = len(self.record.workers) - len(self.ended)

    def failing(self) -> list[str]:
        """The names of the workers that fail to start."""
        return [f"{self.record.generation}.{number}" for number in sorted(self.trying.failing)]

    def pause(self) -> float:
        return pause_of(len(self.record.workers), self.timeout)

    def wants_tick(self, told: float) -> bool:
        """Whether a tick would do more than to repeat what has failed; `told` is when the last one was told."""
        now, missing = time.monotonic(), self.record.wanted - len(self.record.workers)
        # Where no worker runs, none can be overdue.
        since = now - told if self.record.workers else 0.0
        return self.trying.wants_tick(missing, bool(self.ended), since, self.timeout, now)

    def whole(self, word: str | None) -> Whole:
        return whole_of(word, self.is_started, self.record.wanted, self.running, self.why(), tuple(sorted(self.trying.failing)))

    def why(self) -> str:
        """Why fewer workers run than are wanted."""
        if self.trying.failing:
            return self.trying.why() + (f"; {self.serving_on()}" if self.survivors else "")
        if self.survivors:
            return self.serving_on()
        return f"{len(self.ended)} of {len(self.record.workers)} workers ended" if self.ended else ""

    def serving_on(self) -> str:
        return f"{self.survivors} of a master that has died serve on"

    def end_all(self) -> None:
        self.trying.unmark()

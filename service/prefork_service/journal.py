"""The journal of a service: what happened when, by the clock on the wall, in lines for people and for `grep`."""
import pathlib
import time

from .writing import Writer

# The bytes of the file, and how many older ones are kept.
MOST_JOURNAL_BYTES, OLDER = 1 << 20, 3


def wall_clock() -> str:
    """The time here, with its distance from UTC. (The module datetime would take some 350 KB in each process that notes times.)"""
    now = time.time()
    here = time.localtime(now)
    minutes = abs(here.tm_gmtoff) // 60
    return f"{time.strftime('%Y-%m-%dT%H:%M:%S', here)}.{int(now % 1 * 1000):03}{'-' if here.tm_gmtoff < 0 else '+'}{minutes // 60:02}:{minutes % 60:02}"


class Journal:
    """Lines with times. `journal` is the newest file, `journal.1` the one before it, and so on."""

    def __init__(self, path: pathlib.Path):
        self.path, self.writer = path, Writer("the journal")
        # A tick that ends as the one before it did is only counted.
        self.last_tick, self.repeats = "", 0

    def note(self, text: str) -> None:
        self.rotate()
        line = text.replace("\n", " ")
        self.writer.add(self.path, f"{wall_clock()} {line}\n".encode())

    def note_tick(self, report: str) -> None:
        """Notes a tick that was not quiet."""
        if report == self.last_tick:
            self.repeats += 1
            return
        self.end_ticks()
        self.last_tick = report
        self.note(f"tick: {report}")

    def end_ticks(self) -> None:
        """Says how often the last tick came again."""
        if self.repeats:
            self.note(f"tick: {self.repeats} more ended so")
        self.last_tick, self.repeats = "", 0

    def rotate(self) -> None:
        try:
            if self.path.stat().st_size < MOST_JOURNAL_BYTES:
                return
            for number in range(OLDER, 0, -1):
                older = self.path.with_name(f"{self.path.name}.{number - 1}") if number > 1 else self.path
                if older.exists():
                    older.replace(self.path.with_name(f"{self.path.name}.{number}"))
        except OSError:
            # There is none yet, or it stays as it is.
            pass

    def tend(self) -> None:
        if self.writer.waiting:
            self.writer.write()

    def end(self) -> None:
        self.end_ticks()
        self.writer.give_up()

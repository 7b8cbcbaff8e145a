"""Workers that serve on after the death of their master, until those of the next one are ready: survivors.

A survivor makes a file in the folder `survivors`, with its name and the number of its process. It finishes once that file
is gone, or nobody has touched it for as long as the worker may finish. So a service that is started again finds those of
the one before, and no worker outlives for long a service that does not come back.
"""
import contextlib
import dataclasses
import os
import pathlib
import time
from collections.abc import Collection, Iterable

from .blocks import report_of
from .counted import Record
from .folder import SURVIVOR, content_of, files_in
from .leaving import Leaving, start_of
from .processes import fields_of, is_ending

# How often it is looked at them, and how often their files are touched.
SURVIVOR_LOOK_SECONDS, TOUCH_SECONDS = 0.1, 1.0


@dataclasses.dataclass(frozen=True)
class Survivor:
    """A worker that has survived its master: its name, its process, and when that began."""

    name: str
    process: int
    start: str
    file: pathlib.Path


class Survivors:
    """Those that serve on now."""

    def __init__(self, place: pathlib.Path, leaving: Leaving):
        self.place, self.leaving, self.is_open = place, leaving, False
        self.now: list[Survivor] = []
        # When those began whose files have been seen, by the names of the files.
        self.starts: dict[str, str] = {}
        # The files of those that were there when another master died, and of those whose master was seen to run.
        self.elders, self.doubted = set[str](), set[str]()
        self.next_look, self.next_touch = 0.0, 0.0

    def open(self) -> None:
        """From now on workers may survive their masters."""
        self.is_open = True
        with contextlib.suppress(OSError):
            self.place.mkdir(mode=0o700, exist_ok=True)

    def close(self) -> None:
        """The service is about to stop: all finish, and no worker survives its master from now on."""
        self.is_open = False
        self.release()
        with contextlib.suppress(OSError):
            self.place.rmdir()

    def look(self) -> None:
        """Finds those that serve on."""
        if self.is_open and not self.place.exists():
            self.open()
        self.now = [one for one in map(self.read, files_in(self.place)) if one]
        names = {one.file.name for one in self.now}
        self.starts = {name: start for name, start in self.starts.items() if name in names}
        self.elders &= names

    def read(self, file: pathlib.Path) -> Survivor | None:
        """The survivor of a file, whose start is noted there once it is seen. The file of one that has ended is removed."""
        named, text = SURVIVOR.fullmatch(file.name), content_of(file)
        if not named or text is None:
            return None
        process, noted = int(named[2]), text.decode("latin-1") or self.starts.get(file.name, "")
        start = start_of(process)
        if not start or noted not in ("", start) or not (noted or self.leaving.is_own(process)):
            with contextlib.suppress(OSError):
                file.unlink()
            return None
        if not text:
            note(file, start)
        self.starts[file.name] = start
        return Survivor(named[1], process, start, file)

    def tend(self, masters: Collection[int], wanted: int) -> None:
        """Looks at them, and lets those finish that are not needed: their master runs and waits for their end, or as many of
        a later master serve on as are wanted. `masters` are those that run."""
        now = time.monotonic()
        if now < self.next_look:
            return
        self.next_look = now + SURVIVOR_LOOK_SECONDS
        self.look()
        waited = {one.file.name for one in self.now if masters and not parents_of(one, self.place.parent).isdisjoint(masters)}
        replaced = self.elders if 0 < wanted <= len(self.now) - len(self.elders) else set[str]()
        self.end(one for one in self.now if one.file.name in (waited & self.doubted) | replaced)
        self.doubted = waited
        if now >= self.next_touch:
            self.next_touch = now + TOUCH_SECONDS
            touch(one.file for one in self.now)

    def note_death(self) -> None:
        """Another master has died."""
        self.look()
        self.elders = {one.file.name for one in self.now}

    def end(self, ended: Iterable[Survivor]) -> None:
        """Tells some to finish."""
        for one in list(ended):
            with contextlib.suppress(OSError):
                one.file.unlink()
            self.now.remove(one)
            self.leaving.take_process(one.name, one.process, one.start)

    def release(self) -> int:
        """Tells all to finish; how many."""
        self.look()
        count = len(self.now)
        self.end(self.now)
        return count

    def settle(self, report: str, record: Record, sizes: list[int]) -> int:
        """A block has ended so: if others serve in their place, they finish; how many. `sizes` are those of the groups."""
        if not self.now or not is_replaced(report, record, sizes):
            return 0
        self.look()
        replaced = [one for one in self.now if not self.is_counted(one, record)]
        self.end(replaced)
        return len(replaced)

    def is_counted(self, one: Survivor, record: Record) -> bool:
        """Whether it is one of the workers that the block has counted: their master has died since, and nobody serves in their
        place."""
        generation, _, number = one.name.rpartition(".")
        started = (content_of(self.place.parent / "workers" / one.name) or b"").split()
        return generation == record.generation and int(number) in record.workers and b"%d" % one.process in started

    def as_json(self) -> list[dict[str, object]]:
        return [{"worker": one.name, "process": one.process} for one in self.now]


def touch(files: Iterable[pathlib.Path]) -> None:
    """Tells the survivors of these files that there is a service."""
    for file in files:
        with contextlib.suppress(OSError):
            os.utime(file)


def counted(count: int) -> str:
    return "1 worker" if count == 1 else f"{count} workers"


def note(file: pathlib.Path, text: str) -> None:
    """Writes into a file that is there."""
    with contextlib.suppress(OSError):
        opened = os.open(file, os.O_WRONLY | os.O_CLOEXEC)
        try:
            os.write(opened, text.encode())
        finally:
            os.close(opened)


def parents_of(one: Survivor, folder: pathlib.Path) -> set[int]:
    """The parents of the processes of a worker: one of them is its master, or has been."""
    text = content_of(folder / "workers" / one.name) or b""
    numbers = {int(word) for word in text.split() if word.isdigit()}
    return {int(fields[1]) for number in {one.process} | (numbers if one.process in numbers else set()) if (fields := fields_of(number))}


def is_replaced(report: str, record: Record, sizes: list[int]) -> bool:
    """Whether each group has a worker of a master that runs, or is to have none."""
    found = report_of(report)
    if not found.runs and not found.is_back:
        return False
    if len(found.lacks) == len(sizes) > 0:
        return all(size > lacks or not size for size, lacks in zip(sizes, found.lacks))
    return len(record.workers) >= record.wanted


def running(masters: list[int]) -> list[int]:
    """These masters, if all of them run. One that is killed lets go its workers a moment before it has ended."""
    return [] if any(map(is_ending, masters)) else masters

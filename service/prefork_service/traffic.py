"""What the workers of `--wsgi` have answered: each counts in a file of its own, and the service adds them up.

A worker writes its file once in a while, and has it locked: a file that nobody has locked is that of a worker that has
ended. What it had counted stays in the sum, and the file goes.
"""
import contextlib
import dataclasses
import enum
import fcntl
import os
import pathlib
import re
import struct
import threading
import time
from typing import Any

from .signs import Unchanged

# The upper bounds, in seconds, of the buckets of latencies; the last bucket has no bound.
BOUNDS = (0.005, 0.01, 0.025, 0.05, 0.1, 0.25, 0.5, 1.0, 2.5, 5.0, 10.0)
# Statuses of answers by their first digit: 1xx to 5xx.
CLASSES = ("1xx", "2xx", "3xx", "4xx", "5xx")
# How often a worker writes what it has counted, and how often the files of those that have ended are added up at least.
WRITE_SECONDS, LOOK_SECONDS = 0.2, 60.0
# How many files stay open: each is a descriptor.
MOST_OPEN = 256
# The file with the sum of those that have ended; and that of a worker, by its name and its process, which has another name
# before it is locked.
SUM = "ended"
COUNT_FILE = re.compile(r"(\d+\.\d+\.\d+)\.(\d+)")


class Place(enum.IntEnum):
    """Where a file has its numbers, of eight bytes each."""

    # (after the threads, how many are busy, the microseconds and the lines that are lost)
    FIRST_CLASS = 4
    FIRST_BUCKET = FIRST_CLASS + len(CLASSES)


COUNT = Place.FIRST_BUCKET + len(BOUNDS) + 1
FORM = f"={COUNT}Q"
COUNT_BYTES = struct.calcsize(FORM)


@dataclasses.dataclass
class Counts:
    """Threads and how many of them are busy, the time of all answers, the lines that an access log has lost, and answers by
    their statuses and by their times."""

    threads: int = 0
    busy: int = 0
    microseconds: int = 0
    lost_lines: int = 0
    classes: list[int] = dataclasses.field(default_factory=lambda: [0] * len(CLASSES))
    buckets: list[int] = dataclasses.field(default_factory=lambda: [0] * (len(BOUNDS) + 1))

    def note(self, status: int, seconds: float) -> None:
        """Counts an answer."""
        self.microseconds += int(seconds * 1e6)
        self.classes[min(max(status // 100, 1), len(CLASSES)) - 1] += 1
        self.buckets[next((at for at, bound in enumerate(BOUNDS) if seconds <= bound), len(BOUNDS))] += 1

    def add(self, other: "Counts") -> None:
        """Adds what another worker has answered. Its threads are no longer there."""
        self.microseconds += other.microseconds
        self.lost_lines += other.lost_lines
        self.classes = [one + more for one, more in zip(self.classes, other.classes)]
        self.buckets = [one + more for one, more in zip(self.buckets, other.buckets)]

    def packed(self) -> bytes:
        numbers = [self.threads, self.busy, self.microseconds, self.lost_lines, *self.classes, *self.buckets]
        return struct.pack(FORM, *numbers)

    def as_json(self) -> dict[str, Any]:
        return {
            "count": sum(self.buckets), "seconds": self.microseconds / 1e6, "classes": dict(zip(CLASSES, self.classes)),
            "buckets": [{"within": bound, "count": sum(self.buckets[: at + 1])} for at, bound in enumerate(BOUNDS)],
            "lost_lines": self.lost_lines,
        }


def counts_in(text: bytes) -> Counts | None:
    """The counts of a file; nothing if it is not whole."""
    if len(text) != COUNT_BYTES:
        return None
    numbers = list(struct.unpack(FORM, text))
    threads, busy, microseconds, lost_lines = numbers[: Place.FIRST_CLASS]
    classes, buckets = numbers[Place.FIRST_CLASS : Place.FIRST_BUCKET], numbers[Place.FIRST_BUCKET :]
    return Counts(threads, busy, microseconds, lost_lines, classes, buckets)


class Counter:
    """What this worker has answered. Threads note their answers; one thread, the main one, writes the file."""

    def __init__(self, threads: int, folder: str | None, name: str | None):
        self.lock, self.counts, self.is_new, self.written = threading.Lock(), Counts(threads), True, 0.0
        self.file = opened(folder, name) if folder and name else -1

    def note(self, status: int, seconds: float) -> None:
        with self.lock:
            self.counts.note(status, seconds)
            self.is_new = True

    def write(self, busy: int, lost_lines: int, is_last: bool = False) -> None:
        """Writes what is new, unless that was done a moment ago."""
        now = time.monotonic()
        if now - self.written < WRITE_SECONDS and not is_last:
            return
        with self.lock:
            counts = self.counts
            self.is_new = self.is_new or (counts.busy, counts.lost_lines) != (busy, lost_lines)
            counts.busy, counts.lost_lines = busy, lost_lines
            text, is_new, self.is_new = counts.packed(), self.is_new, False
        if is_new and self.file >= 0:
            self.written = now
            # (a disk that is full is no reason to answer nobody)
            with contextlib.suppress(OSError):
                os.pwrite(self.file, text, 0)


def opened(folder: str, name: str) -> int:
    """The file of this worker, locked; -1 if there can be none. The lock is this process's, and none of a process that it
    forks."""
    file, path = -1, f"{folder}/traffic/{name}.{os.getpid()}"
    new = f"{folder}/traffic/.{name}.{os.getpid()}"
    try:
        file = os.open(new, os.O_RDWR | os.O_CREAT | os.O_TRUNC | os.O_CLOEXEC, 0o600)
        fcntl.lockf(file, fcntl.LOCK_EX | fcntl.LOCK_NB)
        os.rename(new, path)
    except OSError:
        # Nobody asks.
        if file >= 0:
            os.close(file)
        return -1
    return file


class CountFile:
    """The file of a worker. Its lock says whether the worker has ended."""

    def __init__(self, path: pathlib.Path):
        self.path, self.process, self.generation = path, int(path.name.rpartition(".")[2]), path.name.rsplit(".", 2)[0]
        self.counts: Counts | None = None
        # Whether its counts are in the sum of those that have ended.
        self.is_added, self.file, self.text = False, -1, b""

    def look(self, is_kept: bool) -> bool:
        """Reads what the worker has counted; whether it has ended. The file stays open if it is kept. Raises OSError."""
        if self.file < 0:
            self.file = os.open(self.path, os.O_RDWR | os.O_CLOEXEC)
        try:
            # The lock comes first: what is read afterwards is all that a worker has counted that has ended.
            is_over = is_free(self.file)
            text = os.pread(self.file, COUNT_BYTES + 1, 0)
            if text != self.text:
                self.text, self.counts = text, counts_in(text)
            return is_over
        finally:
            if not is_kept:
                self.close()

    def remove(self) -> None:
        """Removes the file, unless another worker has one of this name by now. Raises OSError."""
        if self.file < 0 or os.path.samestat(os.fstat(self.file), os.stat(self.path)):
            self.path.unlink()

    def close(self) -> None:
        if self.file >= 0:
            os.close(self.file)
        self.file = -1


def is_free(file: int) -> bool:
    """Whether no other process has locked a file. It is locked then."""
    try:
        fcntl.lockf(file, fcntl.LOCK_EX | fcntl.LOCK_NB)
        return True
    except OSError:
        return False


class Traffic:
    """The folder of these files, as the service reads it."""

    def __init__(self, place: pathlib.Path, is_again: bool = False):
        """Where the process that adds up is started again (`is_again`), it goes on from the sum of the one before."""
        self.place, self.past, self.listed = place, Counts(), Unchanged(place)
        # Whether a worker has counted here, the files, and what those that run have counted, by their processes.
        self.is_counted, self.files, self.running, self.looked = False, dict[str, CountFile](), dict[int, Counts](), 0.0
        # By the generation: what those that run have counted, and what those of it that have ended had.
        self.generations, self.ended = dict[str, Counts](), dict[str, Counts]()
        with contextlib.suppress(OSError):
            place.mkdir(mode=0o700, exist_ok=True)
            self.past = (counts_in((place / SUM).read_bytes()) if is_again else None) or Counts()
        self.look()
        if not is_again:
            self.past, self.is_counted = Counts(), bool(self.running)

    def look(self) -> None:
        """Reads all files. Those of workers that have ended are added up, and removed."""
        self.looked = time.monotonic()
        if not self.listed.holds():
            self.list_files()
        for at, file in enumerate([*self.files.values()]):
            try:
                if file.look(at < MOST_OPEN):
                    self.bury(file)
            except OSError:
                # It has gone.
                file.counts = None
            self.is_counted = self.is_counted or file.counts is not None
        self.add_up()

    def add_up(self) -> None:
        """Takes what those that run have counted, together and by the generation."""
        self.running, self.generations = {}, {}
        for file in self.files.values():
            if file.counts and not file.is_added:
                self.running[file.process] = file.counts
                self.generations.setdefault(file.generation, Counts()).add(file.counts)
        self.ended = {generation: counts for generation, counts in self.ended.items() if generation in self.generations}

    def list_files(self) -> None:
        """Takes the files that have come, and forgets those that have gone."""
        try:
            names = {name for name in os.listdir(self.place) if COUNT_FILE.fullmatch(name)}
        except OSError:
            names = set()
        for name in self.files.keys() - names:
            self.files.pop(name).close()
        for name in names - self.files.keys():
            self.files[name] = CountFile(self.place / name)

    def bury(self, file: CountFile) -> None:
        """The worker has ended: what it has counted stays in the sum, once."""
        if not file.is_added:
            self.is_counted = self.is_counted or file.counts is not None
            self.past.add(file.counts or Counts())
            self.ended.setdefault(file.generation, Counts()).add(file.counts or Counts())
            file.is_added = True
            # (a disk that is full is no reason to count it again)
            with contextlib.suppress(OSError):
                (self.place / SUM).write_bytes(self.past.packed())
        file.remove()
        file.close()
        del self.files[file.path.name]
        # Another worker may have a file of this name already.
        self.listed.sign = None

    def tend(self) -> None:
        """Workers come and go, also where nobody asks what they have answered."""
        if time.monotonic() - self.looked > LOOK_SECONDS:
            self.look()

    def told(self) -> dict[str, Any] | None:
        """What all workers have answered, those that have ended too; nothing if none of them counts."""
        if not self.is_counted:
            return None
        whole = dataclasses.replace(self.past)
        for counts in self.running.values():
            whole.add(counts)
        busy, threads = sum(one.busy for one in self.running.values()), sum(one.threads for one in self.running.values())
        return {**whole.as_json(), "busy": busy, "threads": threads, "generations": self.by_generation()}

    def by_generation(self) -> dict[str, dict[str, int]]:
        """What each generation that runs has answered, by statuses: so that a new one can be compared with the old one."""
        found = {}
        for generation, counts in sorted(self.generations.items()):
            whole = dataclasses.replace(counts)
            whole.add(self.ended.get(generation, Counts()))
            found[generation] = dict(zip(CLASSES, whole.classes))
        return found

    def of(self, process: int | None) -> dict[str, int] | None:
        """What a worker that runs has answered, and its threads."""
        counts = self.running.get(process or 0)
        return {"count": sum(counts.buckets), "busy": counts.busy, "threads": counts.threads} if counts else None

    def end(self) -> None:
        for file in self.files.values():
            file.close()
        self.files.clear()

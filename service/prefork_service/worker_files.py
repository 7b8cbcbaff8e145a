"""The processes of workers by the files that they have, for one who asks again and again.

A file is read anew only where it has changed, and a process is watched by its handle. So a worker that has ended is not taken
for another process that has its number now.
"""
import os
import pathlib

from .ages import start_of
from .counted import runs_below
from .folder import WORKER
from .handles import Handles
from .signs import Sign, Unchanged, is_settled, sign_of

# A worker by its generation and its number.
WorkerName = tuple[str, int]


class WorkerFile:
    """A file of a worker, with the sign that it had when it was read (none: it is read each time), and what it says: the
    process that the master has started, the one that serves, which may be the same, and since when that one runs."""

    def __init__(self, path: str):
        self.path = path
        self.sign: Sign | None = None
        self.handles: list[int] = []
        self.launched, self.process, self.since = 0, 0, 0.0


class WorkerFiles:
    """The files of the workers of a service, which has this process."""

    def __init__(self, place: pathlib.Path, service: int):
        self.place, self.service, self.handles = place, service, Handles[WorkerFile]()
        self.files, self.listed = dict[WorkerName, WorkerFile](), Unchanged(place)

    def running(self) -> dict[WorkerName, int]:
        """The processes of workers, by generation and number."""
        for file in self.handles.ended():
            # Its number may be that of another process by now.
            file.process = 0
        self.list_files()
        for file in self.files.values():
            self.look(file)
        return {worker: file.process for worker, file in self.files.items() if file.process}

    def since(self) -> dict[int, float]:
        """Since when each process has run, by the clock of the system's start."""
        return {file.process: file.since for file in self.files.values() if file.process}

    def launched(self) -> set[int]:
        """The processes that masters have started as workers, and that run."""
        return {file.launched for file in self.files.values() if file.process and file.sign}

    def list_files(self) -> None:
        if self.listed.holds():
            return
        before, self.files = self.files, {}
        try:
            names = [name for name in os.listdir(self.place) if WORKER.fullmatch(name)]
        except OSError:
            names = []
        for name in sorted(names):
            generation, _, number = name.rpartition(".")
            worker = generation, int(number)
            self.files[worker] = before.pop(worker) if worker in before else WorkerFile(f"{self.place}/{name}")
        for file in before.values():
            self.forget(file)

    def look(self, file: WorkerFile) -> None:
        """Reads a file, unless it is as it was."""
        sign = sign_of(file.path)
        if sign and sign == file.sign:
            return
        is_still = is_settled(sign)
        self.forget(file)
        numbers = numbers_in(file.path) if sign else []
        if not numbers:
            return
        # The handles come first: what is found out afterwards is of the processes that they are of, or these have ended.
        handles = [self.handles.take(number, file) for number in {numbers[0], numbers[-1]}]
        file.handles = [handle for handle in handles if handle >= 0]
        if runs_below(numbers[0], self.service):
            file.launched, file.process = numbers[0], numbers[-1]
            file.since = start_of(file.process) or 0.0
        if file.since and len(file.handles) == len(handles) and is_still:
            file.sign = sign

    def forget(self, file: WorkerFile) -> None:
        """Takes what a file has said for nothing."""
        for handle in file.handles:
            if self.handles.owners.get(handle) is file:
                self.handles.drop(handle)
        file.sign, file.handles, file.launched, file.process, file.since = None, [], 0, 0, 0.0

    def end(self) -> None:
        self.handles.end()


def numbers_in(path: str) -> list[int]:
    """The processes that a file of a worker names; none if it can't be read, or is another one's."""
    try:
        with open(path, "rb", 0) as file:
            return [int(word) for word in file.read().split()]
    except (OSError, ValueError):
        return []

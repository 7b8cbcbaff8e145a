"""Workers that are to end and have not: those that were told to quit, and those of a master that has died.

Nobody waits for them. One that hangs, or was stopped, would stay as long as the service, or longer.
"""
import os
import pathlib
import signal
import time
from collections.abc import Collection

from .blocks import block_of
from .folder import files_in
from .processes import descends, fields_of

# How often it is looked at them.
PAUSE_SECONDS = 1.0


class Leaving:
    """The processes of workers that have to end, each with the moment by which."""

    def __init__(self, folder: pathlib.Path, seconds: float):
        """The folder of the service, and how long such a worker may take; 0 is without a limit."""
        self.folder, self.seconds = folder, seconds
        # By the process and its start: the worker's name, and when it has to have ended.
        self.due: dict[tuple[int, str], tuple[str, float]] = {}
        # The processes of such a worker, where it has another one beside that.
        self.processes: dict[tuple[int, str], set[int]] = {}
        self.next_look = 0.0
        # Those that were killed.
        self.killed = set[tuple[int, str]]()

    def note(self, text: str) -> None:
        """Takes those that a block has told to quit, and those of a new master that was ended on the way back."""
        block = block_of(text)
        plain = [call for call in block.calls if call.is_plain]
        for call in plain:
            if call.kind == "quit":
                self.take(call.name)
        spawned = next((call for call in plain if call.kind == "spawn-master"), None)
        if spawned and block.report.is_back:
            self.take_all(f"{spawned.about}.")

    def take_all(self, image: str = "") -> None:
        """Takes all workers, or those of an image: their master has ended, and so has their input."""
        for file in files_in(self.folder / "workers"):
            if file.name.startswith(image):
                self.take(file.name)

    def take(self, name: str) -> None:
        """Takes the worker of this name, if it runs."""
        try:
            numbers = [int(text) for text in (self.folder / "workers" / name).read_text().split()]
        except (OSError, ValueError):
            return
        # (a process that has ended by now has no start)
        start = start_of(numbers[0]) if numbers else ""
        if start and self.is_own(numbers[0]):
            self.take_process(name, numbers[0], start)
            self.processes[numbers[0], start] = set(numbers)

    def take_process(self, name: str, process: int, start: str) -> None:
        """Takes a worker by its process, and when that began."""
        if self.seconds:
            self.due.setdefault((process, start), (name, time.monotonic() + self.seconds))

    def is_own(self, process: int) -> bool:
        """Whether a process runs that belongs to this service. A worker of a dead master no longer descends from it, and
        one that writes a title of its own may have lost its environment."""
        try:
            if descends(process, os.getpid()):
                return True
        except OSError:
            # The system can't be asked just now.
            pass
        return f"PREFORK_FOLDER={self.folder}" in environment_of(process)

    def tend(self, survivors: Collection[int] = ()) -> list[str]:
        """Kills those that have not ended in time; their names. The time of the processes that are to serve on for a while
        has not begun."""
        now = time.monotonic()
        if not self.due or now < self.next_look:
            return []
        self.next_look = now + PAUSE_SECONDS
        self.due = {worker: due for worker, due in self.due.items() if start_of(worker[0]) == worker[1]}
        self.processes = {worker: numbers for worker, numbers in self.processes.items() if worker in self.due}
        for worker, (name, _) in self.due.items():
            if not self.processes.get(worker, {worker[0]}).isdisjoint(survivors):
                self.due[worker] = name, now + self.seconds
        late = [worker for worker, (_, moment) in self.due.items() if moment <= now]
        return [self.due.pop(worker)[0] for worker in late if self.kill(*worker)]

    def kill_all(self) -> None:
        """Kills all workers at once, and those that were to end."""
        self.seconds = self.seconds or 1
        self.take_all()
        for worker in list(self.due):
            self.kill(*worker)

    def kill(self, process: int, start: str) -> bool:
        """Kills a worker by a descriptor of its process, so that no other one is hit that has the number by then."""
        try:
            opened = os.pidfd_open(process)
        except OSError:
            return False
        try:
            is_same = start_of(process) == start and self.is_own(process)
            if is_same:
                signal.pidfd_send_signal(opened, signal.SIGKILL)
                self.killed.add((process, start))
            return is_same
        except OSError:
            return False
        finally:
            os.close(opened)


def start_of(process: int) -> str:
    """When a process began that has not ended: with its number that tells it from all others."""
    fields = fields_of(process)
    return fields[19] if fields and fields[0] != "Z" else ""


def environment_of(process: int) -> list[str]:
    """The variables that a process was started with."""
    try:
        return pathlib.Path(f"/proc/{process}/environ").read_text("utf-8", "surrogateescape").split("\0")
    except OSError:
        return []

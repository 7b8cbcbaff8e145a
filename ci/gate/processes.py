"""Processes that a script has started, and all that these have started, found by a mark in their environment."""
import os
import pathlib
import signal
import time
import uuid

# How long processes may take to end, once they are told to: on a busy machine they wait for a processor first.
LEAVE_SECONDS = 60.0


def numbers() -> list[int]:
    """The numbers of all processes."""
    return [int(folder.name) for folder in pathlib.Path("/proc").iterdir() if folder.name.isdigit()]


class Mark:
    """A variable that is in the environment of every process of a run."""

    def __init__(self, name: str):
        self.name, self.value = name, uuid.uuid4().hex

    def environment(self, **more: str) -> dict[str, str]:
        """The environment of a process that carries the mark."""
        return {**os.environ, **more, self.name: self.value}

    def processes(self) -> dict[int, list[str]]:
        """The processes that carry the mark, with their arguments."""
        wanted, found = f"{self.name}={self.value}".encode(), {}
        for number in numbers():
            folder = pathlib.Path(f"/proc/{number}")
            try:
                if wanted in (folder / "environ").read_bytes().split(b"\0"):
                    found[number] = (folder / "cmdline").read_bytes().decode("latin-1").split("\0")[:-1]
            except OSError:
                # It has ended, or is another user's.
                continue
        return found

    def left(self, seconds: float = LEAVE_SECONDS) -> dict[int, list[str]]:
        """The processes that have not ended by themselves after some seconds."""
        deadline = time.monotonic() + seconds
        while left := self.processes():
            if time.monotonic() > deadline:
                return left
            time.sleep(0.05)
        return {}

    def kill(self) -> None:
        """Kills the processes, by their numbers."""
        for number in self.processes():
            try:
                os.kill(number, signal.SIGKILL)
            except ProcessLookupError:
                pass

    def end_all(self, seconds: float = 5.0) -> None:
        """Kills the processes until none is left, for some seconds: one may start another while it is looked for."""
        deadline = time.monotonic() + seconds
        while self.processes() and time.monotonic() < deadline:
            self.kill()
            time.sleep(0.05)

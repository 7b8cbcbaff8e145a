"""The other side of a worker: a master's lines, and what a worker answers. For tests and for prefork-checkworker."""
import os
import pathlib
import select
import subprocess
import time
from collections.abc import Sequence
from typing import Any

CHECKED_WORKER = "CHECKED_WORKER"
NO_OUTPUT, END, RUNS_ON = "(nothing)", "(the end of its output)", "(it runs on)"


def marked(mark: str) -> list[int]:
    """The processes that carry a mark in their environment."""
    wanted, found = f"{CHECKED_WORKER}={mark}".encode(), []
    for folder in pathlib.Path("/proc").iterdir():
        try:
            if folder.name.isdigit() and wanted in (folder / "environ").read_bytes().split(b"\0"):
                found.append(int(folder.name))
        except OSError:
            continue
    return found


class Conversation:
    """A worker that was started, and the pipes to it."""

    def __init__(self, command: list[str], environment: dict[str, str], mark: str = "", given: Sequence[int] = ()):
        pipes: dict[str, Any] = {"stdin": subprocess.PIPE, "stdout": subprocess.PIPE, "bufsize": 0, "pass_fds": given}
        self.process: Any = subprocess.Popen(command, **pipes, env=environment)
        self.unread, self.mark = b"", mark

    def say(self, *lines: str) -> None:
        try:
            for line in lines:
                self.process.stdin.write(f"{line}\n".encode())
        except BrokenPipeError:
            # What is heard tells that it has ended.
            pass

    def hear(self, seconds: float = 60.0) -> str:
        """The next line, or what came in its place."""
        deadline = time.monotonic() + seconds
        while b"\n" not in self.unread:
            left = max(0.0, deadline - time.monotonic())
            if not select.select([self.process.stdout], [], [], left)[0]:
                return NO_OUTPUT
            got = os.read(self.process.stdout.fileno(), 4096)
            if not got:
                return END
            self.unread += got
        line, _, self.unread = self.unread.partition(b"\n")
        return line.decode("latin-1")

    def rest(self, seconds: float = 5.0) -> bytes:
        """What else it says: up to the end of its output, or for some seconds if a process of it keeps that open."""
        deadline, got = time.monotonic() + seconds, self.unread
        while select.select([self.process.stdout], [], [], max(0.0, deadline - time.monotonic()))[0]:
            piece = os.read(self.process.stdout.fileno(), 4096)
            if not piece:
                break
            got += piece
        return got

    def wait(self, seconds: float = 60.0) -> int | str:
        """Its status."""
        try:
            return int(self.process.wait(seconds))
        except subprocess.TimeoutExpired:
            return RUNS_ON

    def close(self) -> None:
        self.process.kill()
        self.process.wait()
        for pipe in (self.process.stdin, self.process.stdout):
            try:
                pipe.close()
            except BrokenPipeError:
                pass

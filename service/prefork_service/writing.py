"""Texts that are appended to files. One that can't be written, on a full disk, is no reason to serve nobody: it waits."""
import collections
import contextlib
import os
import pathlib

from .folder import say

# How many bytes may wait, in texts that could not be written.
MOST_TEXT_WAITING = 1 << 20


def append(path: pathlib.Path, text: bytes) -> None:
    """Appends a whole text, or nothing of it."""
    path.parent.mkdir(mode=0o700, parents=True, exist_ok=True)
    file = os.open(path, os.O_WRONLY | os.O_APPEND | os.O_CREAT | os.O_CLOEXEC, 0o600)
    try:
        size = os.fstat(file).st_size
        try:
            left = text
            while left:
                left = left[os.write(file, left) :]
        except OSError:
            with contextlib.suppress(OSError):
                os.ftruncate(file, size)
            raise
    finally:
        os.close(file)


class Writer:
    """Appends texts in their order. Those that can't be written wait, and are tried again; that is said once."""

    def __init__(self, name: str):
        self.name = name
        self.waiting: collections.deque[tuple[pathlib.Path, bytes]] = collections.deque()
        self.is_short = False

    def add(self, path: pathlib.Path, text: bytes) -> bool:
        """Appends a text now or later; whether there is room for it to wait."""
        if sum(len(other) for _, other in self.waiting) + len(text) > MOST_TEXT_WAITING:
            return False
        self.waiting.append((path, text))
        self.write()
        return True

    def write(self) -> None:
        """Writes what waits, as far as that can be written."""
        while self.waiting:
            try:
                append(*self.waiting[0])
            except OSError as fault:
                if not self.is_short:
                    say(f"{self.name} can't be written, and is tried again: {fault.strerror}")
                self.is_short = True
                return
            self.waiting.popleft()
        if self.is_short:
            self.is_short = False
            say(f"{self.name} is written again")

    def give_up(self) -> None:
        """At the end: what still can't be written is lost."""
        self.write()
        if self.waiting:
            say(f"{self.name} lacks what could not be written")

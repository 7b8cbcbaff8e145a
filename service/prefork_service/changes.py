"""Files whose changes reload the service, while an application is developed (--reload-on-change).

What is changed together is one HUP, once nothing has changed for a moment. A file that is being written changes when it is
closed. Names that begin with a dot or end with ~, and what Python compiles, are no files of an application.
"""
import ctypes
import os
import pathlib
import selectors
import signal
import struct
import time
from collections.abc import Callable, Iterable

from .folder import say

CLOSE_WRITE, MOVED_FROM, MOVED_TO, CREATE, DELETE = 0x8, 0x40, 0x80, 0x100, 0x200
WATCHED = CLOSE_WRITE | MOVED_FROM | MOVED_TO | CREATE | DELETE
OVERFLOW, NO_LONGER_WATCHED, IS_FOLDER = 0x4000, 0x8000, 0x40000000
EVENT_HEAD = struct.Struct("iIII")
# How long nothing more may have changed.
CHANGES_QUIET_SECONDS, MOST_EVENT_BYTES = 0.3, 65536


def hup() -> None:
    os.kill(os.getpid(), signal.SIGHUP)


def is_own(name: str) -> bool:
    """Whether a name may be one of a file of an application."""
    return not name.startswith(".") and not name.endswith(("~", ".pyc")) and name != "__pycache__"


class Changes:
    """Watches files, and folders with all that is in them, without some folders: what a service writes is no change."""

    def __init__(
        self, events: selectors.BaseSelector, paths: Iterable[str], without: Iterable[pathlib.Path], tell: Callable[[], None] = hup,
    ):
        self.tell, self.events, self.due = tell, events, 0.0
        self.without = {path.resolve() for path in without}
        self.system = ctypes.CDLL(None, use_errno=True)
        self.number = self.system.inotify_init1(os.O_NONBLOCK | os.O_CLOEXEC)
        if self.number < 0:
            raise OSError(ctypes.get_errno(), os.strerror(ctypes.get_errno()), "--reload-on-change")
        # Of each watch the folder, and the names that count there; None for all.
        self.folders: dict[int, tuple[pathlib.Path, set[str] | None]] = {}
        self.changed: set[str] = set()
        for path in map(pathlib.Path, paths):
            if path.is_dir():
                self.watch_all(path)
            else:
                self.watch(path.parent, {path.name})
        events.register(self.number, selectors.EVENT_READ, self.hear)

    def watch(self, folder: pathlib.Path, names: set[str] | None) -> None:
        watch = self.system.inotify_add_watch(self.number, os.fsencode(folder), WATCHED)
        if watch < 0:
            raise OSError(ctypes.get_errno(), os.strerror(ctypes.get_errno()), str(folder))
        before = self.folders[watch][1] if watch in self.folders else set()
        self.folders[watch] = folder, None if names is None or before is None else names | before

    def watch_all(self, folder: pathlib.Path) -> None:
        """Watches a folder, and those in it."""
        for place, within, _ in os.walk(folder):
            path = pathlib.Path(place)
            within[:] = [name for name in within if is_own(name) and (path / name).resolve() not in self.without]
            self.watch(path, None)

    def hear(self, _: int) -> None:
        got, at = os.read(self.number, MOST_EVENT_BYTES), 0
        while at < len(got):
            watch, mask, _, length = EVENT_HEAD.unpack_from(got, at)
            name = os.fsdecode(got[at + EVENT_HEAD.size : at + EVENT_HEAD.size + length].rstrip(b"\0"))
            self.note(watch, mask, name)
            at += EVENT_HEAD.size + length

    def note(self, watch: int, mask: int, name: str) -> None:
        """Takes an event: of a folder that is watched, or that some were lost."""
        if mask & NO_LONGER_WATCHED:
            self.folders.pop(watch, None)
            return
        folder, names = self.folders.get(watch, (pathlib.Path(), set()))
        if not mask & OVERFLOW and not (is_own(name) and (names is None or name in names)):
            return
        path = folder / name
        if mask & IS_FOLDER and mask & (CREATE | MOVED_TO):
            self.watch_new(path)
        elif mask & CREATE and not path.is_symlink():
            # It is being written, and its close follows.
            return
        self.changed.add(name)
        self.due = time.monotonic() + CHANGES_QUIET_SECONDS

    def watch_new(self, folder: pathlib.Path) -> None:
        try:
            self.watch_all(folder)
        except OSError as fault:
            say(f"--reload-on-change: {fault.filename}: {fault.strerror}")

    def seconds(self) -> float | None:
        """When it has something to tell; nothing if it has not."""
        return max(0.0, self.due - time.monotonic()) if self.due else None

    def tend(self) -> None:
        """Asks for a reload once nothing more changes."""
        if self.due and time.monotonic() >= self.due:
            names = sorted(self.changed)
            more = f" and {len(names) - 3} more" if len(names) > 3 else ""
            say(f"{', '.join(names[:3])}{more} changed: HUP")
            self.due, self.changed = 0.0, set()
            self.tell()

    def end(self) -> None:
        self.events.unregister(self.number)
        os.close(self.number)

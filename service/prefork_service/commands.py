"""The command of each generation of workers, and the configuration that its master reads.

The master knows one program, prefork-launch. It finds the command of a worker's generation in the folder `commands`:
`next` is for a generation that has no worker yet, and `I.C` for the workers of generation I.C. So the new generation
of a reload starts by the new configuration's command, and a worker of the old generation that is started again by the
old one's.

The configuration that was accepted last stays: a master that is started again has it, and so has a service that was
killed, where the file has become one that is refused.
"""
import contextlib
import json
import pathlib
import re
from collections.abc import Callable
from typing import TYPE_CHECKING

from .blocks import block_of, report_of
from .configuration import ADDRESSES, Configuration, file_of
from .folder import Folder, content_of, files_in, say, text_of, write_private

if TYPE_CHECKING:
    from .preloading import Preloading

# The configuration that a command line says in place of a file.
GIVEN = "given.toml"
# The name of the file of a generation.
GENERATION = re.compile(r"\d+\.\d+")


def failed_numbers(block: str) -> list[int]:
    """The numbers of the workers that did not start."""
    calls = [call for call in block_of(block).calls if call.kind in ("fork", "await-ready") and not call.is_plain]
    return [call.worker for call in calls if call.worker is not None]


class Commands:
    """What workers are started by, and the configurations that the master reads."""

    def __init__(self, folder: Folder, config: str, first: Configuration):
        """The service starts with `first`, whatever the file has by now."""
        self.folder, self.config = folder, pathlib.Path(config)
        self.place = folder.path / "commands"
        self.place.mkdir(mode=0o700, exist_ok=True)
        self.noted = [self.place / name for name in ("late", "ready")]
        self.now, self.next = folder.path / "config.toml", folder.path / "next.toml"
        self.accepted, self.kept = folder.path / "accepted.toml", self.place / "accepted.files"
        # The programs that are told of events where the command line names them.
        self.told_hooks = dict[str, str]()
        # What forks workers, where a preloader does, and how it is made.
        self.preloading: "Preloading | None" = None
        self.preloads: Callable[[], "Preloading"] | None = None
        self.known: list[pathlib.Path] = []
        self.is_changing = False
        self.take_first(first)

    def take_first(self, first: Configuration) -> None:
        """The configuration that runs, the one that was read last, and the key `answer_within` of the start."""
        self.current, self.proposed, self.began_with = first, first, first.answer_within
        self.write(self.now, first)

    def write(self, target: pathlib.Path, found: Configuration) -> None:
        """Writes a configuration for the master, which finds it missing if it could not be read."""
        for note in found.notes:
            say(note)
        if found.fault:
            target.unlink(missing_ok=True)
        else:
            write_private(target, found.for_master)

    def source(self) -> pathlib.Path:
        """The file that has the text that was read last: the one that people edit, if it is that."""
        try:
            return self.config if text_of(self.config) == self.proposed.text else self.now
        except OSError:
            return self.now

    def accept(self) -> None:
        """Keeps the configuration of what runs, and what its files of variables had. The copy is for a service that is killed:
        without it this one serves on."""
        new = self.place / "accepted"
        try:
            if self.current.files:
                write_private(new, json.dumps(self.current.files).encode())
                new.replace(self.kept)
            else:
                self.kept.unlink(missing_ok=True)
            write_private(new, self.current.text)
            new.replace(self.accepted)
        except OSError as fault:
            say(f"{self.accepted}: {fault.strerror}")

    def hooks(self) -> dict[str, str]:
        """The programs that are told of events: those of the file that runs, and those of the command line in their place."""
        return {**self.current.hooks, **self.told_hooks}

    def has_changed(self) -> bool:
        """Whether the file is another one than was accepted."""
        try:
            return text_of(self.config) != self.current.text
        except OSError:
            return True

    def begin(self) -> None:
        """Forgets all generations: a master is about to start. What has gone of its files is written again."""
        self.place.mkdir(mode=0o700, exist_ok=True)
        for file in self.generations():
            file.unlink(missing_ok=True)
        if content_of(self.now) != self.current.for_master:
            new = self.place / "new"
            write_private(new, self.current.for_master)
            new.replace(self.now)
        self.write_next(self.current, False)

    def generations(self) -> list[pathlib.Path]:
        return [file for file in files_in(self.place) if GENERATION.fullmatch(file.name)]

    def forget_others(self) -> None:
        """Forgets the command of each generation but the one that runs."""
        for file in self.generations():
            if file not in self.known:
                file.unlink(missing_ok=True)

    def write_next(self, found: Configuration, is_next: bool) -> None:
        """Writes what starts the next generation, and before it the addresses of its configuration: a master names those of
        the configuration before, too, while it reloads."""
        before = [f"{ADDRESSES}={' '.join(found.addresses)}"] if found.addresses else []
        text, there = file_of(found.groups, self.started_by(found, is_next), before), self.place / "next"
        if content_of(there) == text:
            # On a full disk it could not be written again.
            return
        new = self.place / "new"
        write_private(new, text)
        new.replace(there)

    def notes(self, block: str) -> list[str]:
        """What is said to people of a block that has gone over to a configuration, or back from one."""
        is_back = block_of(block).report.is_back
        groups = dict.fromkeys(self.proposed.group_of(number) for number in failed_numbers(block))
        found = [f"what has not started is of the group {group}; all groups have gone back" for group in groups if group and is_back]
        answer = self.proposed.answer_within
        if answer != self.began_with and not is_back:
            found.append(f"service.answer_within is for the master: the next start of prefork-serve takes {answer or 'the usual one'}")
        return found

    def change(self, running: str, found: Configuration) -> None:
        """A word goes over to a configuration: it starts a new generation, and this one runs, if it is known.

        A worker of a generation that was rolled back may have been told to quit before it took its command. It takes
        one afterwards, for its generation, and the next reload has a generation of the same name."""
        self.known, self.is_changing = [file for file in self.generations() if running in ("", file.name)], True
        self.proposed = found
        self.write(self.next, found)
        self.write_next(found, True)
        self.forget_others()
        self.begin_notes()

    def settle(self, report: str) -> None:
        """Takes the new command if the new generation runs, and forgets it otherwise."""
        if not self.is_changing:
            return
        self.is_changing = False
        for file in self.noted:
            file.unlink(missing_ok=True)
        if report_of(report).runs:
            self.current = self.proposed
            self.keep_now()
            self.accept()
            for file in self.known:
                file.unlink(missing_ok=True)
            self.settle_preloading(True)
        else:
            self.forget_others()
            self.write_next(self.current, False)
            self.settle_preloading(False)

    def begin_notes(self) -> None:
        """While a new generation is tried, its workers note in files who is ready, and that one was not in time. The others end at
        once then: a master that upgrades starts several, one after another, before it goes back."""
        for file in self.noted:
            try:
                file.write_bytes(b"")
            except OSError as fault:
                # Each of them is waited for, then.
                say(f"{file}: {fault.strerror}")

    def keep_now(self) -> None:
        """The configuration that is to follow runs. A file that can't be written is tried again when a master starts."""
        try:
            self.next.replace(self.now)
        except OSError as fault:
            say(f"{self.now}: {fault.strerror}")

    def started_by(self, found: Configuration, is_next: bool) -> list[list[str]]:
        """What starts the workers of each group: a shim, if a preloader has loaded the application."""
        if not self.preloading and self.preloads and found.has_forked():
            self.preloading = self.preloads()
        preloading = self.preloading
        if preloading and is_next:
            preloading.renew()
        return [
            preloading.words(is_next, at, one) if preloading and one.is_forked else [*one.command] for at, one in enumerate(found.groups)
        ]

    def is_forked(self) -> bool:
        """Whether workers that run were forked by a preloader."""
        return self.preloading is not None and bool(self.preloading.now)

    def settle_preloading(self, has_changed: bool) -> None:
        if self.preloading:
            self.preloading.settle(has_changed)

    def mend(self) -> None:
        """Writes again what somebody has removed: the command of workers that start."""
        if not self.folder.mend() and self.place.exists():
            return
        self.place.mkdir(mode=0o700, exist_ok=True)
        if self.config.parent == self.place and not self.config.exists():
            # What the command line has said in place of a file.
            self.config.write_bytes(self.current.text)
        self.write_next(self.current, False)
        self.accept()

    def clear(self) -> None:
        own = [self.place / name for name in ("next", "new", "accepted", "accepted.files", GIVEN)]
        for file in [*self.generations(), *own, *self.noted, self.now, self.next, self.accepted]:
            file.unlink(missing_ok=True)
        with contextlib.suppress(OSError):
            self.place.rmdir()

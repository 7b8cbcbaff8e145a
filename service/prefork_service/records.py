"""The blocks of masters, in parts of a bounded size, and of a bounded size together.

Each master that the service starts has a folder `records/N`: `from.toml`, the configuration of its start; `blocks.1`,
`blocks.2` and so on, the parts of what it printed, in their order; and for a block K that goes over to another
configuration, `to.K.toml`. So prefork-ctl can certify them. If the new master of an upgrade had ended before block K, the
mark `lost.K` says so: prefork-serve saw that itself. If the master died after block K, and the next one has followed it, the
mark `died.K` has the word that it was carrying out, or nothing.

A tick at which nothing was missing has no block there, and nor have beats; only the last beat of each worker is written
before the next block, since a later tick may rest on it. A tick that ends as the two before it did is not written
either.
"""
import os
import pathlib
import re
import shutil

from .blocks import WORD, beat_of, block_of
from .words import CHANGES, is_tick
from .writing import Writer

# The bytes of a part at most, if the whole allows eight of them; how many masters have a folder.
PART, PARTS, MOST_MASTERS = 1 << 20, 8, 64
MEGABYTE = 1 << 20
# What ends the name of a part before which blocks are lost.
GAP = ".gap"
# How the name of the mark begins that a new master had ended before a block.
LOST = "lost."
# How that of the mark begins that the master died after a block.
DIED = "died."
OWN_FILES = re.compile(r"from\.toml|to\.\d+\.toml|(lost|died)\.\d+|blocks\.\d+(\.gap)?")


def is_quiet(text: str) -> bool:
    """Whether the block of a tick says that nothing was missing."""
    block = block_of(text)
    all_count = all(call.kind == "census" and call.is_plain for call in block.calls)
    return all_count and block.report.outcome in ("nothing", "done") and block.report.cause is None


class Records:
    """What is written of the masters of a service."""

    def __init__(self, place: pathlib.Path, link: pathlib.Path, most: int):
        self.place, self.link, self.most = place, link, most
        self.writer = Writer("the record of blocks")
        self.master = max((int(folder.name) for folder in masters_in(place)), default=0)
        self.part, self.size, self.count = 1, 0, 0
        # The last beat of each worker that is not written; how ticks ended that were written last.
        self.beats: dict[int, tuple[int, str]] = {}
        self.ticks: list[list[str]] = []
        # The configuration that the next word goes over to, the one that was written last, and whether blocks are lost.
        self.proposed, self.target, self.has_gap = b"", b"", False

    def begin(self, configuration: bytes) -> None:
        """A master is about to start with a configuration."""
        self.master += 1
        self.part, self.size, self.count = 1, 0, 0
        self.beats, self.ticks, self.target, self.has_gap = {}, [], b"", False
        self.writer.add(self.folder() / "from.toml", configuration)
        self.show()
        self.forget_old()

    def folder(self) -> pathlib.Path:
        return self.place / str(self.master)

    def current(self) -> pathlib.Path:
        return self.folder() / f"blocks.{self.part}{GAP if self.has_gap else ''}"

    def show(self) -> None:
        """Lets the name `blocks` lead to the part that is written now."""
        new = self.link.with_name(".blocks")
        try:
            new.unlink(missing_ok=True)
            new.symlink_to(os.path.relpath(self.current(), self.link.parent))
            new.replace(self.link)
        except OSError:
            # A process that looks for it finds the folder.
            pass

    def add(self, block: str) -> None:
        """Takes a whole block."""
        first, *body = block.splitlines()
        word = first.removeprefix(WORD)
        if beat := beat_of(word):
            self.beats[beat[0]] = beat[1], block
        elif not self.count or not is_tick(word):
            self.ticks = []
            self.write(block)
        elif not is_quiet(block) and self.ticks != [body, body]:
            self.ticks = [*self.ticks[-1:], body]
            self.write(block)

    def write(self, block: str) -> None:
        """Writes a block, and before it the beats on which it may rest."""
        beats = [text for _, text in sorted(self.beats.values(), key=lambda it: it[0])]
        self.beats.clear()
        self.count += len(beats) + 1
        word = block.splitlines()[0].removeprefix(WORD)
        if word in CHANGES and self.proposed != self.target:
            self.target = self.proposed
            self.writer.add(self.folder() / f"to.{self.count}.toml", self.target)
        text = "".join([*beats, block]).encode()
        if self.size and self.size + len(text) > self.part_size():
            self.begin_part()
        if self.writer.add(self.current(), text):
            self.size += len(text)
        elif not self.has_gap:
            self.has_gap = True
            self.begin_part()

    def mark_lost(self, why: str) -> None:
        """The block that was written last tells of a new master that has ended by itself, as prefork-serve has seen."""
        self.writer.add(self.folder() / f"{LOST}{self.count}", f"{why}\n".encode())

    def mark_death(self, word: str) -> None:
        """The master has died after the block that was written last, while it carried out this word, or between two."""
        self.writer.add(self.folder() / f"{DIED}{self.count}", f"{word}\n".encode())

    def part_size(self) -> int:
        return min(PART, self.most // PARTS)

    def begin_part(self) -> None:
        self.part, self.size = self.part + 1, 0
        self.show()
        self.forget_old()

    def tend(self) -> None:
        if self.writer.waiting:
            self.writer.write()

    def forget_old(self) -> None:
        """Removes the oldest until what is left, with a part more, is not too much."""
        files = [(master, file) for master in masters_in(self.place) for file in files_of(master)]
        sizes = {file: file.stat().st_size for _, file in files}
        spare = len({master for master, _ in files}) - MOST_MASTERS
        own = self.folder()
        while files and (spare > 0 or sum(sizes[file] for _, file in files) > self.most - self.part_size()):
            oldest = files[0][0]
            if oldest == own:
                files, gone = forget_part(files, self.current())
                if not gone:
                    return
            else:
                files, spare = [pair for pair in files if pair[0] != oldest], spare - 1
                shutil.rmtree(oldest, ignore_errors=True)

    def end(self) -> None:
        self.writer.give_up()


def forget_part(files: list[tuple[pathlib.Path, pathlib.Path]], current: pathlib.Path) -> tuple[list[tuple[pathlib.Path, pathlib.Path]], bool]:
    """Removes the oldest part of the master that runs, if it is not the one that is written; what is left."""
    parts = [file for _, file in files if file.name.startswith("blocks.") and file != current]
    if not parts:
        return files, False
    parts[0].unlink(missing_ok=True)
    return [pair for pair in files if pair[1] != parts[0]], True


def masters_in(place: pathlib.Path) -> list[pathlib.Path]:
    """The folders of masters, oldest first."""
    found = [folder for folder in place.iterdir() if folder.name.isdigit() and folder.is_dir()] if place.is_dir() else []
    return sorted(found, key=lambda folder: int(folder.name))


def part_number(file: pathlib.Path) -> int:
    return int(file.name.split(".")[1])


def files_of(folder: pathlib.Path) -> list[pathlib.Path]:
    """The files of a master, its parts in their order."""
    files = [file for file in folder.iterdir() if OWN_FILES.fullmatch(file.name)]
    parts = [file for file in files if file.name.startswith("blocks.")]
    return [*(file for file in files if file not in parts), *sorted(parts, key=part_number)]

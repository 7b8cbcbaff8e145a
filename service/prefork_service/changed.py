"""Whether files have changed that have to do with a worker that fails to start: its program, what its command names, and what
its last lines name, as the trace of a fault does."""
import os
import pathlib
import re

# A path in the text of a fault, how many files are looked at, and how often a change of one is news while workers fail.
PATH_IN_TEXT = re.compile(rb"/[^\s\"'():,;<>\0]+")
MOST_CHANGED_FILES, MOST_CHANGES = 64, 8
# A setting of workers whose value is read from a file.
READS = b"\1read "


def seen(path: pathlib.Path) -> tuple[int, int, int] | None:
    """What tells a file from the one that was there before; nothing if the file is missing."""
    try:
        found = path.stat()
    except OSError:
        return None
    return found.st_ino, found.st_mtime_ns, found.st_size


def is_file(path: pathlib.Path) -> bool:
    """Whether a path names a file, or one that may come."""
    return path.is_file() or "/" in str(path) and not path.exists() and path.parent.is_dir()


def of_setting(word: bytes) -> bytes:
    """A word of a command, or the file that a setting before it reads."""
    return word.partition(b"=")[2] if word.startswith(READS) else word


class Changed:
    """The files of workers that fail, as they were seen last."""

    def __init__(self, folder: pathlib.Path):
        self.folder = folder
        self.files: dict[pathlib.Path, tuple[int, int, int] | None] = {}
        # How often one has changed since all workers ran.
        self.count = 0

    def named(self, workers: list[str]) -> set[pathlib.Path]:
        """The files that the command and the last lines of these workers name."""
        place, found = pathlib.Path(os.environ.get("PREFORK_PLACE") or "."), set[pathlib.Path]()
        for file in [self.folder / "commands" / "next", *(self.folder / "errors" / name for name in workers)]:
            try:
                text = file.read_bytes()
            except OSError:
                continue
            words = [of_setting(word) for word in text.split(b"\0")] if file.name == "next" else PATH_IN_TEXT.findall(text)
            found |= {place / os.fsdecode(word) for word in words if word and len(word) < 4096}
        return set(sorted(filter(is_file, found))[:MOST_CHANGED_FILES])

    def take(self, workers: list[str]) -> None:
        """Takes the files as they are now."""
        self.files = {path: seen(path) for path in self.named(workers)} if workers else {}
        if not workers:
            self.count = 0

    def look(self, workers: list[str]) -> bool:
        """Whether one of them has changed since this was asked last. What others write all the while counts some times."""
        before = self.files
        self.take(workers)
        has_changed = any(path in before and before[path] != now for path, now in self.files.items())
        self.count += has_changed
        return has_changed and self.count <= MOST_CHANGES

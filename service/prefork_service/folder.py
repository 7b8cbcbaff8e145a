"""The folder of a service: its lock, its sockets, its pid file, and what the master printed."""
import contextlib
import errno
import fcntl
import os
import pathlib
import re
import shutil
import stat
import sys

# What says that a folder is that of a service.
FOLDER_MARK = ".prefork"
# The file of a worker, by its generation and number.
WORKER = re.compile(r"\d+\.\d+\.\d+")
# The same, also where it was put aside and could not be removed.
WORKER_OR_ENDED = re.compile(r"\d+\.\d+\.\d+(\.ended)?")
# The file in which a worker of --wsgi counts what it answers, by its process too.
TRAFFIC = re.compile(r"\.?\d+\.\d+\.\d+\.\d+|ended")
# That of a worker that has survived its master: with the number of its process.
SURVIVOR = re.compile(r"(\d+\.\d+\.\d+)\.(\d+)")


def say(text: str) -> None:
    """Says something to people. A standard error that is full is no reason to serve nobody."""
    try:
        print(f"prefork-serve: {text}", file=sys.stderr, flush=True)
    except OSError:
        pass


def plain(text: str) -> str:
    """A text without what would tell a terminal to do something."""
    return "".join(char if char.isprintable() else "?" for char in text)


def files_in(place: pathlib.Path) -> list[pathlib.Path]:
    """The files of a folder; none where it has gone or is something else."""
    try:
        return list(place.iterdir())
    except OSError:
        return []


def content_of(file: pathlib.Path) -> bytes | None:
    """What a file has, if it can be read."""
    try:
        return file.read_bytes()
    except OSError:
        return None


def text_of(file: pathlib.Path) -> bytes:
    """What a file has that people write. Raises OSError: at a pipe too, for which it would have to wait."""
    opened = os.open(file, os.O_RDONLY | os.O_NONBLOCK | os.O_CLOEXEC)
    with open(opened, "rb") as text:
        if not stat.S_ISREG(os.fstat(opened).st_mode):
            raise OSError(errno.EINVAL, "it is no regular file")
        return text.read()


def write_private(file: pathlib.Path, text: bytes) -> None:
    """Writes a file that nobody else can read. Raises OSError."""
    opened = os.open(file, os.O_WRONLY | os.O_CREAT | os.O_TRUNC | os.O_CLOEXEC, 0o600)
    with open(opened, "wb") as written:
        os.fchmod(opened, 0o600)
        written.write(text)


def remove_all(place: pathlib.Path, names: re.Pattern[str]) -> None:
    """Removes the files of a folder that have these names, and the folder once it is empty. Nothing else is removed."""
    for file in files_in(place):
        if names.fullmatch(file.name):
            with contextlib.suppress(OSError):
                file.unlink()
    with contextlib.suppress(OSError):
        place.rmdir()


class Folder:
    """The folder of a service. `prefork-serve` locks it. Its master inherits the lock, so no other master runs before that
    one has ended."""

    def __init__(self, path: str, lock: int = -1):
        self.path = pathlib.Path(path).absolute()
        self.pid, self.blocks = self.path / "serve.pid", self.path / "blocks"
        self.words, self.keeper = self.path / "ctl.sock", self.path / "keeper.sock"
        # Where a new master asks the relay between the first master and the one in charge.
        self.masters = self.path / "masters.sock"
        # A file for each worker, with the number of its process, and one in which they note why they end.
        self.workers, self.reasons = self.path / "workers", self.path / "reasons"
        # A file for each worker that serves on after the death of its master.
        self.survivors = self.path / "survivors"
        self.mark = self.path / FOLDER_MARK
        # The process that has it may be the only service here. Its master inherits it.
        self.lock = lock
        if lock >= 0:
            os.set_inheritable(lock, False)

    def write_own(self) -> None:
        """What processes of the service expect in the folder."""
        try:
            if self.workers.is_symlink():
                raise FileExistsError
            self.workers.mkdir(mode=0o700, exist_ok=True)
        except FileExistsError:
            sys.exit(f"prefork-serve: {self.workers} is no folder, and the service has one of that name")
        self.mark.touch(0o600)
        with contextlib.suppress(OSError):
            # Workers of --wsgi count there what they answer.
            (self.path / "traffic").mkdir(mode=0o700, exist_ok=True)
        self.pid.write_text(f"{os.getpid()}\n")

    def mend(self) -> bool:
        """Makes the folder again if somebody has removed it, or parts of it; whether that was so."""
        if self.pid.exists() and self.workers.exists() and self.mark.exists():
            return False
        say(f"{self.path}: files of the service have been removed, and are made again")
        self.path.mkdir(mode=0o700, parents=True, exist_ok=True)
        old, self.lock = self.lock, os.open(self.path, os.O_RDONLY | os.O_DIRECTORY)
        os.close(old)
        self.is_claimed()
        self.write_own()
        with contextlib.suppress(OSError):
            self.reasons.touch(0o600)
        return True

    def is_claimed(self) -> bool:
        try:
            fcntl.flock(self.lock, fcntl.LOCK_EX | fcntl.LOCK_NB)
            return True
        except BlockingIOError:
            return False

    def clear(self) -> None:
        for own in (self.words, self.keeper, self.masters, self.pid, self.reasons):
            own.unlink(missing_ok=True)
        remove_all(self.survivors, SURVIVOR)
        self.clear_beside()

    def clear_beside(self) -> None:
        """Removes what is there beside its own files."""
        remove_all(self.workers, WORKER_OR_ENDED)
        remove_all(self.path / "traffic", TRAFFIC)
        # Of an adapter that was killed together with the process that holds its program.
        for room in self.path.glob("worker.??????"):
            shutil.rmtree(room, ignore_errors=True)

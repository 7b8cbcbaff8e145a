"""What a worker written in Python needs: the master's lines, and the sockets of the keeper. See docs/WORKERS.md."""
import os
import select
import sys
import time

from .holding import Unfit

LONGEST_LINE = 4096
# How often a worker that has survived its master looks whether it is to finish.
SURVIVAL_LOOK = 0.1


class Pipes:
    """The master at the other end of the pipes.

    They are moved away from descriptors 0 and 1, where the application and the processes that it starts read and print:
    a printed line would be an answer to the master. Processes that the application forks do not have them.
    """

    def __init__(self) -> None:
        self.lines, self.answers, self.unread = os.dup(0), os.dup(1), b""
        nothing = os.open(os.devnull, os.O_RDONLY)
        os.dup2(nothing, 0)
        os.close(nothing)
        os.dup2(2, 1)
        os.register_at_fork(after_in_child=self.close)

    def close(self) -> None:
        for number in (self.lines, self.answers):
            try:
                os.close(number)
            except OSError:
                pass

    def read(self, seconds: float) -> list[list[str]] | None:
        """The lines that have come within some seconds, each as its words; None at the end of input."""
        if not select.select([self.lines], [], [], seconds)[0]:
            return []
        got = os.read(self.lines, 65536)
        if not got:
            return None
        *lines, self.unread = (self.unread + got).split(b"\n")
        if len(self.unread) > LONGEST_LINE:
            raise Unfit("a line that is too long")
        return [line.decode("latin-1").split(" ") for line in lines]

    def say(self, text: str) -> None:
        try:
            os.write(self.answers, f"{text}\n".encode())
        except BrokenPipeError:
            # The master has gone. The end of input follows.
            pass

    def has_master(self) -> bool:
        """Whether somebody reads the answers."""
        watched = select.poll()
        watched.register(self.answers, 0)
        return not watched.poll(0)


def clear_environment() -> None:
    """Takes out what is between the master and the worker, for the application and what it starts."""
    for name in list(os.environ):
        if name.startswith(("PREFORK_", "LISTEN_", "WATCHDOG_")) or name == "NOTIFY_SOCKET":
            del os.environ[name]


# Where a worker notes why it ends, for the service, and its name there: the environment loses both.
FOLDER, WORKER_NAME = os.environ.get("PREFORK_FOLDER"), os.environ.get("PREFORK_WORKER")


class Survival:
    """Of a worker that serves on after the death of its master: a file in the folder of the service. It finishes once that
    is gone, or nobody has touched it for some seconds."""

    def __init__(self, seconds: float):
        self.path, self.seconds = f"{FOLDER}/survivors/{WORKER_NAME}.{os.getpid()}", seconds
        self.touched, self.seen = 0, time.monotonic()

    def begins(self) -> bool:
        """Says to the service that this worker serves on; whether the service wants that."""
        try:
            os.close(os.open(self.path, os.O_WRONLY | os.O_CREAT | os.O_TRUNC | os.O_CLOEXEC, 0o600))
        except OSError:
            return False
        self.seen = time.monotonic()
        return True

    def look(self) -> bool:
        """Whether this worker serves on no longer. It says so itself, if it was not told for too long."""
        try:
            touched = os.stat(self.path).st_mtime_ns
        except OSError:
            return True
        if touched != self.touched:
            self.touched, self.seen = touched, time.monotonic()
        if time.monotonic() - self.seen <= self.seconds:
            return False
        try:
            os.unlink(self.path)
        except OSError:
            # The service was faster.
            pass
        return True


# Those of its files that a worker writes to. They are open for one that becomes another user.
LATE, MADE_READY, REASONS = "commands/late", "commands/ready", "reasons"
OPENED: dict[str, int] = {}


def open_files() -> None:
    """Opens them: as another user it could not."""
    for name in (LATE, MADE_READY, REASONS):
        try:
            OPENED[name] = os.open(f"{FOLDER}/{name}", os.O_WRONLY | os.O_APPEND | os.O_CLOEXEC)
        except OSError:
            # Nobody asks.
            pass


def append(name: str, text: bytes) -> None:
    """Adds to one of these files."""
    try:
        file = OPENED[name] if name in OPENED else os.open(f"{FOLDER}/{name}", os.O_WRONLY | os.O_APPEND | os.O_CLOEXEC)
        os.write(file, text)
        if name not in OPENED:
            os.close(file)
    except OSError:
        # Nobody asks.
        pass


def note_late() -> None:
    """Notes that this worker was not ready in time, while its generation is tried."""
    append(LATE, f"{generation()}\n".encode())


def note_ready() -> None:
    """Notes that this worker is ready, while its generation is tried: its master tells it at the end of the word."""
    append(MADE_READY, f"{WORKER_NAME} {os.getpid()}\n".encode())


def is_known_late() -> bool:
    """Whether another worker of this generation was not ready in time."""
    try:
        with open(f"{FOLDER}/commands/late") as file:
            return f"{generation()}\n" in file.readlines()
    except OSError:
        return False


def generation() -> str:
    return (WORKER_NAME or "").rpartition(".")[0]


def warn(text: str) -> None:
    print(f"worker {os.getpid()}: {text}", file=sys.stderr, flush=True)
    if not FOLDER or not WORKER_NAME:
        return
    append(REASONS, f"{WORKER_NAME} {text}".replace("\n", " ").encode()[:1000] + b"\n")

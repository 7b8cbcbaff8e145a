"""Which workers there are: as blocks have told, and by the files that they have."""
import os
import pathlib

from .blocks import block_of
from .folder import WORKER, files_in
from .processes import descends

# More than the file of a worker has.
MOST_WORKER_BYTES = 4096


class Record:
    """What blocks have told: which workers there are, and how many are wanted."""

    def __init__(self) -> None:
        self.generation, self.workers, self.wanted = "", list[int](), 0

    def forget_workers(self) -> None:
        """A master has been started, and has counted nobody yet. Those of the one before are not its own."""
        self.generation, self.workers = "", []

    def note(self, text: str) -> None:
        block = block_of(text)
        counts = [call for call in block.calls if call.kind == "census" and call.answer == "counted"]
        if not counts:
            return
        self.generation, self.workers = counts[-1].generation, counts[-1].counted()
        # (USR1 counts those that it has told, and leaves the number that is wanted as it was)
        if block.report.runs and block.word != "USR1":
            self.wanted = len(self.workers) + sum(block.report.lacks)


def started_workers(place: pathlib.Path, service: int | None = None) -> dict[tuple[str, int], int]:
    """The processes of workers, by generation and number. The service itself removes the files of those that have ended;
    others name its process."""
    found, ancestor, known = {}, service or os.getpid(), set[int]()
    for file in files_in(place):
        if not WORKER.fullmatch(file.name):
            continue
        try:
            with open(file, "rb", 0) as opened:
                text = opened.read(MOST_WORKER_BYTES).decode()
        except (OSError, ValueError):
            continue
        numbers, (generation, _, number) = text.split(), file.name.rpartition(".")
        # The process that the master has started, and the one that serves, where it is another one.
        if number.isdigit() and numbers and numbers[0].isdigit() and runs_below(int(numbers[0]), ancestor, known):
            found[generation, int(number)] = int(numbers[-1])
        elif numbers and not service:
            forget(file, text)
    return found


def runs_below(process: int, ancestor: int, known: set[int] | None = None) -> bool:
    """Whether a worker runs, as far as is known: one of which the system can't be asked just now is not forgotten."""
    try:
        return descends(process, ancestor, known)
    except OSError:
        return True


def forget(file: pathlib.Path, text: str) -> None:
    """Removes the file of a worker that has ended. A worker that is started in its place has a file of the same name, and
    may write it at this very moment: that one stays, or comes back."""
    aside = file.with_name(f"{file.name}.ended")
    try:
        file.rename(aside)
        if aside.read_text() == text:
            aside.unlink()
        else:
            aside.rename(file)
    except (OSError, ValueError):
        pass

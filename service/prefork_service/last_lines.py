"""What workers said last on their standard error: prefork-launch has the end of it kept in the folder `errors`."""
import fcntl
import pathlib
import shutil
import time

from .folder import files_in

# How much of the end is shown, how long the process that keeps it may take to write the rest, and how long it is waited
# between two looks.
KEPT, LAST_LINE_SECONDS, LINE_PAUSE = 4096, 0.5, 0.005
# How many lines people are told, of how many workers; how many files there may be.
MOST_LINES, MOST_WORKERS, MOST_FILES = 20, 2, 256


def is_complete(path: pathlib.Path) -> bool:
    """Whether nobody can add to a file any more: its reader has it locked."""
    try:
        with open(path, "rb") as file:
            fcntl.flock(file, fcntl.LOCK_SH | fcntl.LOCK_NB)
    except BlockingIOError:
        return False
    except OSError:
        # It is not there.
        return True
    return True


def lines_of(text: bytes) -> list[str]:
    """The last lines of a text, each whole, without what moves the cursor of a terminal."""
    end = text[-KEPT:]
    if len(text) > KEPT:
        end = end.partition(b"\n")[2] or end
    shown = end.decode(errors="replace").replace("\t", "    ")
    return ["".join(letter for letter in line if letter.isprintable()) for line in shown.split("\n") if line.strip()]


class LastLines:
    """The folder of these files."""

    def __init__(self, place: pathlib.Path):
        self.place = place
        shutil.rmtree(place, ignore_errors=True)
        try:
            place.mkdir(mode=0o700)
        except OSError:
            # Nothing is kept then.
            pass

    def of(self, names: list[str]) -> dict[str, list[str]]:
        """The last lines of these workers, which have ended."""
        deadline, found = time.monotonic() + LAST_LINE_SECONDS, {}
        for name in names:
            path = self.place / name
            while not is_complete(path) and time.monotonic() < deadline:
                time.sleep(LINE_PAUSE)
            try:
                lines = lines_of(path.read_bytes())
            except OSError:
                continue
            if lines:
                found[name] = lines
        return found

    def forget_old(self) -> None:
        """Removes the oldest files of workers that have ended, if there are too many."""
        if len(files := files_in(self.place)) <= MOST_FILES:
            return
        try:
            files.sort(key=lambda file: file.stat().st_mtime)
        except OSError:
            return
        for file in files[: len(files) - MOST_FILES]:
            if is_complete(file):
                file.unlink(missing_ok=True)

    def end(self) -> None:
        shutil.rmtree(self.place, ignore_errors=True)


def shown(errors: dict[str, list[str]]) -> list[str]:
    """What people are told: the last lines of some workers."""
    found: list[str] = []
    for name, lines in list(errors.items())[:MOST_WORKERS]:
        found += [f"worker {name} said last:", *(f"    {line}" for line in lines[-MOST_LINES:])]
    return found

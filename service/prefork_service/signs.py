"""What tells a file from the same file at another time, without a look into it."""
import os
import pathlib
import time

Sign = tuple[int, int, int]
# The system's clock of files moves in steps: a file that has changed within the last one may change again, and look the same.
STEP_NANOSECONDS = 100_000_000


def sign_of(path: str | pathlib.Path) -> Sign | None:
    """The sign of a file; nothing if it is missing."""
    try:
        found = os.stat(path)
    except OSError:
        return None
    return found.st_ino, found.st_mtime_ns, found.st_size


def is_settled(sign: Sign | None) -> bool:
    """Whether a file that has changed since has another sign."""
    return sign is not None and time.time_ns() - sign[1] > STEP_NANOSECONDS


class Unchanged:
    """What was found in a file or a folder, as long as that has the sign that it had then."""

    def __init__(self, path: str | pathlib.Path):
        self.path = path
        self.sign: Sign | None = None

    def holds(self) -> bool:
        """Whether what was found last still holds. If not, it is to be found anew now."""
        sign = sign_of(self.path)
        if sign and sign == self.sign:
            return True
        self.sign = sign if is_settled(sign) else None
        return False

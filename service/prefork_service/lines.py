"""Lines that prefork-watch adds to the journal, which prefork-serve writes. Each is written whole, or not at all."""
import os

from .journal import wall_clock


class Lines:
    """The journal of a service."""

    def __init__(self, path: str):
        self.path = path

    def note(self, *texts: str) -> None:
        if not texts:
            return
        lines = "".join(f"{wall_clock()} {text}".replace("\n", " ") + "\n" for text in texts)
        try:
            file = os.open(self.path, os.O_WRONLY | os.O_APPEND | os.O_CREAT | os.O_CLOEXEC, 0o600)
        except OSError:
            # A full disk. What is told on standard error is told all the same.
            return
        try:
            os.write(file, lines.encode())
        except OSError:
            pass
        finally:
            os.close(file)

"""What workers and their adapters have noted of why they end.

The program that prefork-launch starts has the folder in PREFORK_FOLDER and its name, such as 1.2.0, in
PREFORK_WORKER. An adapter that ends since something is wrong appends a line to the file `reasons` there: its name,
and why.
"""
import os
import pathlib

from .blocks import block_of
from .folder import plain

MOST_REASON_BYTES = 1 << 16


class Reasons:
    """The file in which reasons are noted."""

    def __init__(self, path: pathlib.Path):
        self.path, self.read = path, 0
        try:
            os.close(os.open(path, os.O_WRONLY | os.O_CREAT | os.O_TRUNC | os.O_CLOEXEC, 0o600))
        except OSError:
            # Nobody notes a reason then.
            pass

    def take(self) -> dict[str, str]:
        """The reasons noted since the last time, by those that noted them: the last of each."""
        try:
            with open(self.path, "rb") as file:
                file.seek(self.read)
                text = file.read()
            self.read += len(text)
            if self.read > MOST_REASON_BYTES:
                os.truncate(self.path, 0)
                self.read = 0
        except OSError:
            return {}
        lines = text.decode(errors="replace").splitlines()
        return {plain(name): plain(why) for name, _, why in (line.partition(" ") for line in lines) if why}


def failed_workers(block: str) -> list[str]:
    """The workers that a block has started in vain, by their names."""
    calls = [call for call in block_of(block).calls if call.kind == "await-ready" and call.answer in ("gone", "late")]
    return list(dict.fromkeys(call.name for call in calls))

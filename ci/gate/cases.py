"""Case folders: what a program is given, and what it must write."""
import pathlib
import shutil
from collections.abc import Collection

from gate.tally import ROOT

# What a folder of tests/cases has beside the files that lie in the working folder of the run.
OWN = frozenset({"args", "stdin", "stdout", "stderr", "status", "closed-stdout", "closed-stderr"})


def content(path: pathlib.Path, missing: bytes = b"") -> bytes:
    """What a file has; a file that is missing is mostly empty."""
    return path.read_bytes() if path.exists() else missing


def lines(path: pathlib.Path) -> list[bytes]:
    """The lines of a file that may be missing, without their ends."""
    return content(path).split(b"\n")[:-1]


def folders(*places: pathlib.Path) -> list[pathlib.Path]:
    """The case folders in these folders, in their order; those of tests/cases if none is named."""
    return sorted({file.parent for place in places or (ROOT / "tests" / "cases",) for file in place.glob("**/args")})


def files(folder: pathlib.Path, own: Collection[str] = OWN) -> list[pathlib.Path]:
    """The files of a case that lie in the working folder of the run."""
    return [file for file in folder.iterdir() if file.name not in own]


def lay_out(folder: pathlib.Path, room: str | pathlib.Path) -> None:
    """Copies these files into the working folder of a run."""
    for file in files(folder):
        shutil.copy(file, room)

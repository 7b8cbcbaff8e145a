"""What the part of a start needs that reads the command line, and then becomes the core."""
import json
import os
import signal
import sys
from collections.abc import Iterable
from typing import Any

from . import places
from .burying import adopt_orphans
from .starting import CORE
from .words import STOPS


def has_journal() -> bool:
    """Whether standard error goes to the journal of systemd, which notes times itself."""
    try:
        found = os.fstat(2)
    except OSError:
        return False
    return os.environ.get("JOURNAL_STREAM", "") == f"{found.st_dev}:{found.st_ino}"


def become_core(settings: dict[str, Any], descriptors: Iterable[int]) -> None:
    """Becomes the core: the same process, with what was found out. It is told in a file that has no name."""
    file = os.memfd_create("settings")
    os.write(file, json.dumps(settings).encode())
    os.lseek(file, 0, os.SEEK_SET)
    for number in [file, *descriptors]:
        os.set_inheritable(number, True)
    adopt_orphans()
    # A stop that comes now is heard once the core hears words.
    signal.pthread_sigmask(signal.SIG_BLOCK, [signal.Signals[f"SIG{name}"] for name in STOPS])
    sys.stderr.flush()
    # (what follows is for people who look at processes)
    os.execv(sys.executable, [*places.in_python(sys.argv[0]), CORE, str(file), *sys.argv[1:]])

"""What both parts of a start of prefork-serve need: the one that reads the command line, and the core that follows it in the
same process."""
import json
import signal
import sys
from typing import Any

from .words import STOPS

# The first word of the core's command line, after which a number follows.
CORE = "--core"


def end_early(number: int, _: object) -> None:
    """A signal that stops the service before it has begun to hear words."""
    sys.exit(f"prefork-serve: {signal.Signals(number).name} has stopped the start")


def take_signals() -> None:
    """Those that were blocked or ignored by what has started this process come too."""
    signal.signal(signal.SIGCHLD, signal.SIG_DFL)
    for name in STOPS:
        signal.signal(signal.Signals[f"SIG{name}"], end_early)
    signal.pthread_sigmask(signal.SIG_SETMASK, ())


def settings_of(number: int) -> dict[str, Any]:
    """What the core was told."""
    with open(number, "rb") as file:
        return dict(json.loads(file.read()))

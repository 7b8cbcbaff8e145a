"""Waiting for something to hold, with a limit."""
import time
from collections.abc import Callable
from typing import Any

SECONDS = 60.0
PAUSE = 0.02


class Wrong(Exception):
    """Something is not as it should be, and what follows would say nothing."""


def until(what: str, holds: Callable[[], Any], seconds: float = SECONDS) -> Any:
    """What `holds` gives once that is true."""
    deadline = time.monotonic() + seconds
    while time.monotonic() < deadline:
        found = holds()
        if found:
            return found
        time.sleep(PAUSE)
    raise Wrong(f"waited {seconds:g} seconds: {what}")


def comes(holds: Callable[[], Any], seconds: float = SECONDS) -> bool:
    """Whether a condition becomes true in time."""
    try:
        return bool(until("", holds, seconds))
    except Wrong:
        return False

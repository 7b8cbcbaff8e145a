"""Why calls of a block failed: what workers and their adapters have noted, the keeper's refusals, and what the system says."""
import functools
import subprocess
from collections.abc import Callable, Iterable
from typing import Any

from . import places
from .blocks import NEW_MASTER, Call, block_of

MOST_REASONS = 5
# How long it may take to learn why no process could be started.
EXPLAIN_START_SECONDS = 2.0
UNKNOWN = "why is not known; the messages of workers are on the standard error of the service"


def explained(block: str, noted: dict[str, str], others: Iterable[str] = ()) -> list[str]:
    """Each call of a block that went wrong, with the reason; calls that went wrong alike once. `others` are reasons
    that nobody has noted for one worker. However many starts have failed, one process is started to learn why."""
    found: dict[str, str] = {}
    rest, start = list(dict.fromkeys(others)), functools.cache(reason_of_start)
    for call in block_of(block).calls:
        if not call.is_plain:
            why = reason_of(call, noted, start) or "; ".join(rest) or UNKNOWN
            found.setdefault(f"{call.kind} {call.answer} {why}", f"{call.text}: {why}")
    return list(found.values())[:MOST_REASONS]


def reason_of(call: Call, noted: dict[str, str], start: Callable[[], str]) -> str | None:
    """Why a call failed, as far as it is known. `start` says why a process could not be started."""
    if call.kind == "fork":
        return start()
    if call.kind in ("spawn-master", "adopt", "alive"):
        return noted.get(NEW_MASTER) or (start() if call.kind == "spawn-master" else None)
    if call.kind == "ask":
        return "its operator said back"
    if call.kind == "await-ready" and call.answer == "late":
        return noted.get(call.name) or "it was not ready in time"
    return noted.get(call.name)


def reason_of_start() -> str:
    """Why a process could not be started, if that is so still."""
    streams: dict[str, Any] = dict.fromkeys(("stdin", "stdout", "stderr"), subprocess.DEVNULL)
    try:
        subprocess.run([places.LAUNCH], **streams, check=False, timeout=EXPLAIN_START_SECONDS)
    except OSError as fault:
        return f"{places.LAUNCH}: {fault.strerror}"
    except subprocess.TimeoutExpired:
        return f"{places.LAUNCH} has not started after {EXPLAIN_START_SECONDS:g} seconds"
    return "the master had no process or descriptor left at that moment (its limits, or those of the system)"

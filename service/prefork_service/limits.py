"""How long workers and new masters may keep the master waiting, by what the command line says. Older programs of masters
have no limits for that."""
import math
import subprocess
from typing import Any

from .bounds import ANSWER_WITHIN, READY_WITHIN, TIMES

# How long a master waits for an answer, if nobody says it.
ANSWER_SECONDS = 60
# The numbers of the master have 32 bits.
MOST_TIMEOUT = (1 << 32) // TIMES - 1
# How long a program may take to say what it knows.
ASKING_SECONDS = 10.0


def seconds_of(text: str) -> int:
    """A whole number of seconds."""
    if not 0 <= int(text) <= MOST_TIMEOUT:
        raise ValueError(text)
    return int(text)


def seconds_said(text: str) -> float:
    """What an option of an adapter says. Without an adapter nobody has looked at it."""
    try:
        return min(float(text), MOST_TIMEOUT)
    except ValueError:
        return 0.0


def limits_of(within: int, seconds: float, has_adapter: bool) -> list[str]:
    """The options of a master that may wait `within` seconds for an answer, and at least `seconds` for its workers to be ready or
    to end; none without a limit. A worker without an adapter has the limits that were said; an adapter ends its program before
    its master ends it."""
    if not within:
        return []
    is_less = seconds <= TIMES * within if has_adapter else not seconds
    return [ANSWER_WITHIN, str(within), *([] if is_less else [READY_WITHIN, str(min(math.ceil(seconds), MOST_TIMEOUT))])]


def answer_seconds(told: int | None, in_file: int | None) -> int:
    """How long a master waits for an answer: by the command line, or by the file."""
    return told if told is not None else ANSWER_SECONDS if in_file is None else in_file


def known(prefork: str, limits: list[str]) -> list[str]:
    """These limits, if the program of the master knows any. One that does not say so in time is taken to know them: on a full
    machine a master that hangs would be noticed by nobody else."""
    if not limits:
        return []
    streams: dict[str, Any] = {"stdin": subprocess.DEVNULL, "stdout": subprocess.PIPE, "stderr": subprocess.DEVNULL}
    try:
        told = subprocess.run([prefork, "supervise", "--help"], **streams, timeout=ASKING_SECONDS).stdout
    except subprocess.TimeoutExpired:
        return limits
    except OSError:
        return []
    return limits if f"{ANSWER_WITHIN} ".encode() in told else []

"""Since when processes run, and how much they have computed, as the system counts it."""
import os
import time

from .processes import fields_of

TICKS = os.sysconf("SC_CLK_TCK")


def start_of(process: int) -> float | None:
    """When a process was started, in seconds since the system was; nothing if it has ended."""
    fields = fields_of(process)
    return int(fields[19]) / TICKS if fields else None


def age_of(process: int) -> float:
    """For how many seconds a process has run; 0 if it has ended."""
    start = start_of(process)
    return age_since(start) if start is not None else 0.0


def age_since(start: float) -> float:
    """How long ago a moment was, which is told in seconds since the system was started."""
    return max(0.0, time.clock_gettime(time.CLOCK_BOOTTIME) - start)

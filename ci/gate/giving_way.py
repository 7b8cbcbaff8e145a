"""Checks that give way: at the lowest priority, and stopped while others want the processors.

Like kit.py this depends on the inside of `rt`. It is a file of its own since no verdict rests on it: the ledger's keys
have the sum of kit.py.
"""
import os
import pathlib
import signal
import sys

from gate import kit
from gate.processes import numbers

# What a check begins with: it becomes idle work, so that a proof that wakes up takes its processor at once.
LOWERS = """
import os, sys
os.nice(19)
try:
    os.sched_setscheduler(0, os.SCHED_IDLE, os.sched_param(0))
except OSError:
    pass
os.execvp(sys.argv[1], sys.argv[1:])
"""


def give_way() -> None:
    """From now on each check that this process starts gives way to whatever else the session runs."""
    guarded, lowers = kit.rt.rtlib.guarded, [sys.executable, "-ISc", LOWERS]
    kit.rt.rtlib.guarded = lambda: [*lowers, *guarded()]


def checks() -> list[int]:
    """The processes of the checks that this process has started: they are in a group that another process leads, which
    ends them when this one ends."""
    lines = {number: fields_of(number) for number in numbers()}
    groups = {line[2] for number, line in lines.items() if line[1] == os.getpid() and line[2] != os.getpgrp()}
    return [number for number, line in lines.items() if line[2] in groups and line[2] != number]


def fields_of(number: int) -> tuple[int, int, int]:
    """A process with its parent and its group; none of the three where it has ended."""
    try:
        words = pathlib.Path(f"/proc/{number}/stat").read_text(errors="replace").rpartition(")")[2].split()
        return number, int(words[1]), int(words[2])
    except (OSError, IndexError):
        return 0, 0, 0


def tell(number: signal.Signals) -> None:
    """Stops all checks, or lets them go on."""
    for check in checks():
        try:
            os.kill(check, number)
        except ProcessLookupError:
            pass

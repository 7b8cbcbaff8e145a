"""Orphans: processes that are given to prefork-serve when the one that started them ends, and that it must bury.

As process 1 of a container prefork-serve is given all of them. Elsewhere it asks for those of its own processes: the
workers of a killed preloader stay its descendants then, and so do the processes that hold the programs of killed workers.
"""
import os
import pathlib
import subprocess
import time
import weakref
from typing import Any

from .processes import fields_of

PR_SET_CHILD_SUBREAPER = 36
# The process between an adapter and its program, which ends all that the program has started. How long it may take at a
# stop, and how often it is looked.
HOLDER, END_SECONDS, BURY_LOOK_SECONDS = "prefork-hold", 10.0, 0.01
# Those that it has started itself, and waits for where it has started them.
OWN_CHILDREN: "weakref.WeakSet[subprocess.Popen[bytes]]" = weakref.WeakSet()


def started(command: list[Any], **given: Any) -> subprocess.Popen[bytes]:
    """Starts a process that its caller waits for."""
    process = subprocess.Popen(command, **given)
    OWN_CHILDREN.add(process)
    return process


def adopt_orphans() -> None:
    """Asks the system for the orphans among its descendants, also for the program that this process becomes. A system that cannot
    do that gives them to process 1."""
    import ctypes
    ctypes.CDLL(None).prctl(PR_SET_CHILD_SUBREAPER, 1, 0, 0, 0)


def bury_orphans() -> list[int]:
    """Buries the children that have ended and that it has not started itself; their numbers."""
    buried: list[int] = []
    while (found := ended_child()) and found not in {process.pid for process in OWN_CHILDREN if process.returncode is None}:
        os.waitpid(found, 0)
        buried.append(found)
    return buried


def ended_child() -> int | None:
    """A child that has ended and is not buried yet. While it is one of its own, the others wait."""
    try:
        found = os.waitid(os.P_ALL, 0, os.WEXITED | os.WNOHANG | os.WNOWAIT)
    except ChildProcessError:
        return None
    return found.si_pid if found else None


def await_holders(seconds: float = END_SECONDS) -> list[int]:
    """Waits until those that hold the programs of killed workers have ended all of them: once the service says that it
    has stopped, nobody serves. Those that have not ended in time."""
    deadline = time.monotonic() + seconds
    while (found := holders()) and time.monotonic() < deadline:
        bury_orphans()
        time.sleep(BURY_LOOK_SECONDS)
    return found


def holders() -> list[int]:
    """The children that hold a program and have not ended."""
    found = []
    for file in pathlib.Path("/proc/self/task").glob("*/children"):
        try:
            children = [int(text) for text in file.read_text().split()]
        except OSError:
            continue
        found += [child for child in children if name_of(child) == HOLDER and (fields_of(child) or ["Z"])[0] != "Z"]
    return found


def name_of(process: int) -> str:
    try:
        return pathlib.Path(f"/proc/{process}/comm").read_text().strip()
    except OSError:
        return ""

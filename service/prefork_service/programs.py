"""Whether programs can be started: those of the service, and others."""
import errno
import os
import pathlib
import shutil
import sys

from .places import ACTIVATE, HOME, LAUNCH


def check() -> None:
    """Ends if the C programs were not compiled."""
    if not ACTIVATE.exists() or not LAUNCH.exists():
        sys.exit(f"prefork: {HOME / 'out'} has no programs; compile them: {HOME / 'build'}")
    if not pathlib.Path("/proc/self/stat").exists():
        sys.exit("prefork-serve: /proc is not mounted, and nothing else tells which processes run")


def fault_of(program: str, folder: str = "") -> str | None:
    """Why a program cannot be executed that is started in a folder, if that is so."""
    if "/" not in program:
        return None if shutil.which(program) else f"{program}: it is in no folder of PATH"
    path = os.path.join(folder, program)
    if not os.path.exists(path):
        return f"{program}: {os.strerror(errno.ENOENT)}"
    is_fit = os.access(path, os.X_OK) and not os.path.isdir(path)
    return None if is_fit else f"{program}: {os.strerror(errno.EACCES)}"

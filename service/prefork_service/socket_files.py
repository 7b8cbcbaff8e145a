"""What is at the path of a Unix socket before it is opened: only a socket file at which nobody answers is removed."""
import errno
import os
import socket
import stat

# How much of where a symbolic link leads is said: the answer of a keeper has a bounded length.
LONGEST_LINK = 100
FILE_KINDS = (
    (stat.S_ISREG, "a file"), (stat.S_ISDIR, "a folder"), (stat.S_ISFIFO, "a pipe"),
    (stat.S_ISBLK, "a device"), (stat.S_ISCHR, "a device"),
)


def make_place(path: str) -> None:
    """Removes the socket file that an earlier run has left at a path. Anything else stays: raises OSError, which says
    what is there."""
    try:
        found = os.lstat(path)
    except FileNotFoundError:
        return
    if not stat.S_ISSOCK(found.st_mode):
        raise in_use(f"{kind_of(path, found.st_mode)} is there, which is not removed")
    if fault := fault_of_call(path):
        if fault.errno != errno.ECONNREFUSED:
            raise in_use(f"a socket is there, and whether somebody listens at it is not known: {fault.strerror}")
        remove(path, found)
    else:
        raise in_use("somebody listens there")


def has_listener(path: str) -> bool:
    """Whether somebody listens at a path."""
    return fault_of_call(path) is None


def fault_of_call(path: str) -> OSError | None:
    """Why a connection to a path fails; nothing if somebody listens there, whose queue may be full."""
    with socket.socket(socket.AF_UNIX) as probe:
        probe.setblocking(False)
        try:
            probe.connect(path)
        except BlockingIOError:
            return None
        except OSError as fault:
            return fault
    return None


def remove(path: str, found: os.stat_result) -> None:
    """Removes a file, unless another one has come in its place since."""
    now = os.lstat(path)
    if (now.st_dev, now.st_ino) != (found.st_dev, found.st_ino):
        raise in_use("another process opens it")
    os.unlink(path)


def kind_of(path: str, mode: int) -> str:
    """What a file is that is no socket, for people."""
    if stat.S_ISLNK(mode):
        return f"a symbolic link to {os.fsencode(os.readlink(path)).decode(errors='replace')[:LONGEST_LINK]}"
    return next((kind for is_kind, kind in FILE_KINDS if is_kind(mode)), "something else")


def in_use(what: str) -> OSError:
    return OSError(errno.EADDRINUSE, f"{os.strerror(errno.EADDRINUSE)}: {what}")

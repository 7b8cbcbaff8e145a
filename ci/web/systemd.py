"""What systemd does for a unit with Type=notify and FileDescriptorStoreMax: it hears what the service says, and keeps the
sockets that it is given for the next start."""
import fcntl
import os
import pathlib
import socket
import sys
import threading

# Where the copies of sockets begin, so that they are in nobody's way.
LOW = 100
MOST_SOCKETS = 8
# Starts a command with the sockets as its descriptors from 3 on: NAMES NUMBER.. -- COMMAND..
STARTS = """
import os, sys
cut = sys.argv.index("--")
for at, number in enumerate(map(int, sys.argv[2:cut])):
    os.dup2(number, 3 + at)
    os.close(number)
names = {"LISTEN_PID": str(os.getpid()), "LISTEN_FDS": str(cut - 2), "LISTEN_FDNAMES": sys.argv[1]}
os.execve(sys.argv[cut + 1], sys.argv[cut + 1 :], os.environ | names)
"""


class Systemd:
    """A place to notify, what was said there, and the sockets that are stored, by their names."""

    def __init__(self, path: pathlib.Path):
        self.path, self.said, self.stored = path, list[str](), dict[str, int]()
        self.told = socket.socket(socket.AF_UNIX, socket.SOCK_DGRAM)
        self.told.bind(str(path))
        self.thread = threading.Thread(target=self.hear, daemon=True)
        self.thread.start()

    def hear(self) -> None:
        while True:
            text, given, _, _ = socket.recv_fds(self.told, 4096, MOST_SOCKETS)
            if text == b"end":
                return
            self.take(text.decode(), given)

    def take(self, text: str, given: list[int]) -> None:
        lines = dict(line.partition("=")[::2] for line in text.split("\n"))
        if lines.get("FDSTORE") == "1" and given:
            self.drop(lines["FDNAME"])
            self.stored[lines["FDNAME"]] = fcntl.fcntl(given[0], fcntl.F_DUPFD_CLOEXEC, LOW)
        elif lines.get("FDSTOREREMOVE") == "1":
            self.drop(lines["FDNAME"])
        else:
            self.said.append(text)
        for number in given:
            os.close(number)

    def drop(self, name: str) -> None:
        if name in self.stored:
            os.close(self.stored.pop(name))

    def start(self) -> tuple[list[str], list[int]]:
        """What starts a command with the stored sockets: words before it, and the descriptors that it inherits."""
        numbers = list(self.stored.values())
        return [sys.executable, "-c", STARTS, ":".join(self.stored), *map(str, numbers), "--"], numbers

    def close(self) -> None:
        with socket.socket(socket.AF_UNIX, socket.SOCK_DGRAM) as end:
            end.sendto(b"end", str(self.path))
        self.thread.join()
        self.told.close()
        for name in list(self.stored):
            self.drop(name)

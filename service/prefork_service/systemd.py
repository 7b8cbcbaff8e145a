"""What systemd is told, if it has started the service."""
import os
import socket
import time
from collections.abc import Iterable

# How the names of variables begin that are for prefork-serve alone; and what the system may take to accept a message.
OF_SYSTEMD, NOTIFY_SECONDS = ("LISTEN_", "NOTIFY_SOCKET", "WATCHDOG_"), 1.0
# A watchdog that is not there; and one is told a little before half its time is over.
LONG, SOON = 1e9, 0.9


def notify(text: str, sockets: Iterable[socket.socket] = ()) -> None:
    """A systemd that takes no message is no reason to serve nobody."""
    place = os.environ.get("NOTIFY_SOCKET", "")
    if not place:
        return
    try:
        with socket.socket(socket.AF_UNIX, socket.SOCK_DGRAM) as told:
            told.settimeout(NOTIFY_SECONDS)
            told.connect(place.replace("@", "\0", 1) if place.startswith("@") else place)
            socket.send_fds(told, [text.encode()], [one.fileno() for one in sockets])
    except OSError:
        pass


def may_store() -> bool:
    """Whether there is a systemd that may store the sockets, so that they outlive this process."""
    return bool(os.environ.get("NOTIFY_SOCKET"))


class Watchdog:
    """Tells systemd twice in its time (WatchdogSec) that the loop of the service goes round."""

    def __init__(self) -> None:
        micros, of = os.environ.pop("WATCHDOG_USEC", ""), os.environ.pop("WATCHDOG_PID", "")
        is_ours = micros.isdigit() and int(micros) > 0 and of in ("", str(os.getpid()))
        self.every, self.told = int(micros) / 2e6 if is_ours else LONG, -LONG

    def tend(self) -> None:
        now = time.monotonic()
        if self.every < LONG and now - self.told >= self.every * SOON:
            self.told = now
            notify("WATCHDOG=1")


def name_of(address: str) -> str:
    """An address as the name of a descriptor: that has no colon."""
    return address.replace(":", "_port_")


def store(address: str, one: socket.socket) -> None:
    """Gives a socket to systemd, which hands it to the next start (FileDescriptorStoreMax)."""
    notify(f"FDSTORE=1\nFDNAME={name_of(address)}\nFDPOLL=0", [one])


def unstore(address: str) -> None:
    notify(f"FDSTOREREMOVE=1\nFDNAME={name_of(address)}")

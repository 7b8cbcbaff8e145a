"""The options of listeners: tables `[sockets."ADDRESS"]` of a configuration, whose kinds and ranges the master checks.

The keeper opens an address with them. On a socket that is open, each is changed once the configuration runs that has it;
so a rollback has nothing to take back. What can't be changed there is said with the word.
"""
import json
import os
import socket
import time
from collections.abc import Callable
from typing import TYPE_CHECKING, Any

from .configuration import Configuration
from .folder import say
from .opening import DEFER_SECONDS, MOST_QUEUE, Wanted
from .sockets import file_of

if TYPE_CHECKING:
    from .keeping import KeeperProcess

# How often the lengths of queues are set again that a program may have changed.
KEEP_SECONDS = 1.0


def wanted_in(found: Configuration) -> dict[str, Wanted]:
    """What a configuration wants of each socket."""
    return {address: Wanted(**told) for address, told in found.listeners.items()}


def packet_of(address: str, wanted: Wanted) -> str:
    """What a keeper is told of an address."""
    return json.dumps([address, wanted.told()], ensure_ascii=False)


def usual_of(options: list[str], address: str) -> Wanted:
    """What a socket has where nobody says otherwise, by the options of the keeper."""
    told = dict(zip(options, options[1:]))
    umask = os.umask(0)
    os.umask(umask)
    mode = told.get("--socket-mode")
    return Wanted(
        backlog=MOST_QUEUE, defer_accept="--defer-accept" in options, owner=os.geteuid(),
        group=int(told["--socket-group"]) if "--socket-group" in told else group_in(os.path.dirname(address)),
        mode=int(mode, 8) if mode else 0o777 & ~umask,
    )


def group_in(folder: str) -> int:
    """The group of a file that is made in a folder."""
    try:
        found = os.stat(folder or ".")
    except OSError:
        return os.getegid()
    return found.st_gid if found.st_mode & 0o2000 else os.getegid()


def change(address: str, one: socket.socket, before: Wanted, after: Wanted) -> list[str]:
    """Changes what differs on an open socket; why something can't be."""
    keys = [key for key in after.told() if getattr(after, key) != getattr(before, key)]
    found: dict[str, str] = {}
    for key in keys:
        try:
            SET_BY[key](address, one, getattr(after, key))
        except OSError as fault:
            found[key] = fault.strerror or str(fault)
    return [f"{address}: {key} stays as it is: {why}. A new address has it" for key, why in found.items()]


def change_deferral(address: str, one: socket.socket, defers: bool) -> None:
    if not address.startswith("/"):
        one.setsockopt(socket.IPPROTO_TCP, socket.TCP_DEFER_ACCEPT, DEFER_SECONDS if defers else 0)


# (the mode is the last one: a file that is given away loses bits of it)
SET_BY: dict[str, Callable[[str, socket.socket, Any], None]] = {
    "backlog": lambda _, one, length: one.listen(length),
    "defer_accept": change_deferral,
    "owner": lambda path, _, owner: os.chown(path, owner, -1, follow_symlinks=False),
    "group": lambda path, _, group: os.chown(path, -1, group, follow_symlinks=False),
    "mode": lambda path, _, mode: os.chmod(path, mode),
}
OF_FILES = ("owner", "group", "mode")


class Listeners:
    """What is wanted of the sockets of a keeper, as it runs and as it was told."""

    def __init__(self, keeping: "KeeperProcess"):
        self.keeping = keeping
        self.now: dict[str, Wanted] = {}
        self.told: dict[str, Wanted] = {}
        # What is said with the word that is over.
        self.notes: list[str] = []
        self.kept = time.monotonic()

    def begin(self, first: Configuration) -> None:
        """The options of a start. Sockets that systemd has opened or stored have what is said, and else what its unit says;
        those of a killed service have nothing of its configuration."""
        self.now = wanted_in(first)
        self.tell(self.now)
        for address, one in self.keeping.held.items():
            new = self.now.get(address, Wanted())
            is_ours = address not in self.keeping.of_systemd
            self.take(address, one, Wanted(), new.over(usual_of(self.keeping.options, address)) if is_ours else new)

    def propose(self, following: Configuration) -> None:
        """A word is to go over to a configuration: what is opened for it has its options. What is open has those of before
        until it is done."""
        self.tell({address: wanted for address, wanted in wanted_in(following).items() if address not in self.keeping.held})

    def settle(self, running: Configuration) -> None:
        """This configuration runs."""
        before, self.now = self.now, wanted_in(running)
        options = self.now
        self.tell({**dict.fromkeys(self.told, Wanted()), **options})
        self.told = dict(options)
        for address, one in self.keeping.held.items():
            old, new = before.get(address, Wanted()), options.get(address, Wanted())
            if old != new and self.may_change(address, new):
                usual = usual_of(self.keeping.options, address)
                self.take(address, one, old.over(usual), new.over(usual))

    def may_change(self, address: str, new: Wanted) -> bool:
        """Whether the path still leads to the socket: another file is not changed."""
        if not address.startswith("/") or file_of(address) == self.keeping.files.get(address):
            return True
        if any(getattr(new, key) is not None for key in OF_FILES):
            self.note([f"{address}: the path leads to the socket no more: the next HUP opens it anew, with its options"])
        return False

    def take(self, address: str, one: socket.socket, before: Wanted, after: Wanted) -> None:
        self.note(change(address, one, before, after))

    def note(self, said: list[str]) -> None:
        for text in said:
            say(text)
        self.notes += said

    def tell(self, options: dict[str, Wanted]) -> None:
        """Tells the keeper what it does not know yet."""
        for address, wanted in options.items():
            if self.told.get(address, Wanted()) != wanted:
                self.keeping.tell_options(packet_of(address, wanted))
        self.told |= options

    def tell_again(self) -> None:
        """A keeper has been started that knows nothing."""
        for address, wanted in self.told.items():
            self.keeping.tell_options(packet_of(address, wanted))

    def tend(self) -> None:
        """Sets the lengths of queues again, since a program that listens at a socket that it was given sets its own."""
        if time.monotonic() - self.kept < KEEP_SECONDS:
            return
        self.kept = time.monotonic()
        for address, wanted in self.now.items():
            if wanted.backlog and (one := self.keeping.held.get(address)):
                one.listen(wanted.backlog)

    def take_notes(self) -> list[str]:
        notes, self.notes = self.notes, []
        return notes

"""prefork-keeper [--defer-accept] [--socket-mode MODE] [--socket-group GROUP] PATH [LINGER]

Keeps the listening sockets of a service, so that no connection that waits in a queue is lost while workers and
masters change. It is asked on the Unix socket PATH: a worker connects, sends an address (`127.0.0.1:8080`, or the
path of a Unix socket), and is answered `ok` with the listening socket, or `no` and why not. It asks for its other
addresses on the same connection, and holds them all as long as that is open. `-` and an address gives up that one.

A socket is opened for the first who asks, and everybody after gets the same one. One that nobody has held for LINGER
seconds (2) is closed, but only where another one was held all that time: so a dropped address ends, and while no worker
runs at all the connections wait in the queues for the next one.

With --defer-accept the system holds a TCP connection back until its first bytes are there, for a second or so: workers
accept no connection that has not begun to ask.

Unix sockets get the mode and the group that are named, and otherwise those that the umask and the user give.

`errors` in place of an address is answered with the keeper's own standard error, where a worker's messages belong.

A client that says nothing for 5 seconds is dropped, and so is the oldest of more than 1,024 such clients, or where no
descriptor is left for another one.

It ends with its standard input: with the process that started it.

With --door N it is the keeper of prefork-serve. It listens at the socket N, which it inherits and which has the path
PATH, and its standard input is a socket to prefork-serve, over which each of them tells the other of sockets, in one
packet each:

    +ADDRESS    with a listening socket: the keeper has opened it, or is given it. Who holds one that it is given, it
                does not know, and it does not close that one
    -ADDRESS    it is closed there
    _ADDRESS    nobody has held it for LINGER seconds: once it is not needed prefork-serve closes it, says `-ADDRESS`, and
                then the keeper closes it. Who asks before that gets this socket, which is told with `+ADDRESS` again
    ~           a worker holds its addresses no longer: it finishes, or has ended
    !ADDRESS: REASON    the keeper can't open it
    =           all who are to hold a socket have asked for it since: it may be closed, once those that finish are over
    /ADDRESS    no configuration names it any more: it is closed, and opened anew if somebody asks for it
    %ADDRESS    if the path of this Unix socket has been removed, it is opened anew
    *[ADDRESS, OPTIONS]   in JSON: what is wanted of this address, once it is opened
    ?  .        prefork-serve asks whether the keeper answers, and it does
    x           the keeper is to end, and Unix sockets are to be removed

If prefork-serve ends without this, it was killed. The keeper stays then as long as a worker holds an address: workers serve
on after the death of their master. The next prefork-serve connects to PATH and says `^`. It is given each socket with
`+ADDRESS`, and then `x`; once it says `x` itself, it keeps them, and this keeper ends.
"""
import grp
import io
import json
import os
import resource
import selectors
import socket
import sys
import time
from typing import TYPE_CHECKING

from . import VERSION
from .barrier import Barrier, Broken
from .door import Door, has_said
from .errors import take_standard
from .opening import Wanted, listening
from .packets import LONGEST_ADDRESS, LONGEST_TOLD, Packet
from .sockets import QUEUE, file_of, given_sockets, seal
from .titles import set_title

if TYPE_CHECKING:
    import argparse

LINGER = 2.0
# How long workers that hold a socket, and are not known to, may take to close it once they finish.
FINISH_SECONDS = 10.0
# How long the next prefork-serve may take to receive the sockets.
HEIR_SECONDS = 5.0
# How many clients may have connected and not asked yet: all workers that there can be may start at a time.
MOST_SILENT_ASKERS = 1024
# Asked for in place of an address: the standard error of the service.
ERRORS = "errors"
# How a holder begins what it says of an address that it gives up.
GIVES_UP = "-"
DEFER = "--defer-accept"
# Of Unix sockets.
MODE_OPTION, GROUP = "--socket-mode", "--socket-group"
# The socket at which it listens, which it inherits from prefork-serve.
DOOR = "--door"


def say(text: str) -> None:
    try:
        print(f"prefork-keeper: {text}", file=sys.stderr, flush=True)
    except OSError:
        pass


class KeptSocket:
    """A listening socket, how many hold it, whether others may that the keeper does not know, and since when it is
    held no more."""

    def __init__(self, address: str, one: socket.socket, has_strangers: bool = False):
        self.address, self.socket, self.has_strangers, self.is_given = address, one, has_strangers, has_strangers
        self.holders, self.free_since = 0, 0.0
        # Whether it is closed once prefork-serve has closed its copy.
        self.is_closing = False
        self.file = file_of(address)

    def settle(self) -> None:
        """Strangers finish, and nobody else is one."""
        if self.has_strangers:
            self.has_strangers, self.free_since = False, time.monotonic() + FINISH_SECONDS

    def lose_holder(self) -> None:
        self.holders -= 1
        self.free_since = max(self.free_since, time.monotonic())

    def is_free(self, linger: float) -> bool:
        return not self.holders and not self.has_strangers and time.monotonic() - self.free_since > linger

    def remove(self) -> None:
        """Closes it, and removes it if it is a file."""
        self.socket.close()
        if self.file and file_of(self.address) == self.file:
            try:
                os.unlink(self.address)
            except OSError:
                # It has gone, or lies in a folder of another user: the socket of a unit is systemd's.
                pass


class Channel:
    """The socket to prefork-serve, which has a copy of each listening socket."""

    def __init__(self) -> None:
        self.socket = socket.socket(fileno=os.dup(0))

    def tell(self, text: str, one: socket.socket | None = None) -> None:
        try:
            socket.send_fds(self.socket, [text.encode()], [one.fileno()] if one else [])
        except OSError:
            # It has ended, and so does the input.
            pass

    def hear(self) -> tuple[str, socket.socket | None]:
        try:
            said, given, _, _ = socket.recv_fds(self.socket, LONGEST_TOLD, 1)
        except OSError:
            return "", None
        return said.decode(), given_sockets(given)[0] if given else None


class SocketKeeper:
    """The sockets that are kept, by address, and who holds which."""

    def __init__(
        self, door: socket.socket, linger: float, defers: bool, channel: Channel | None, group: int | None = None
    ):
        self.linger, self.channel = linger, channel
        # What is wanted of sockets where nobody says otherwise, and what is said of addresses.
        self.usual, self.wanted = Wanted(defer_accept=defers, group=group), dict[str, Wanted]()
        self.kept: dict[str, KeptSocket] = {}
        # Addresses that were dropped once.
        self.dropped: set[str] = set()
        self.held: dict[socket.socket, set[KeptSocket]] = {}
        # Whether a holder has gone that prefork-serve was not told of.
        self.has_lost = False
        # Whether prefork-serve was killed.
        self.is_orphan = False
        self.events, self.barrier = selectors.DefaultSelector(), Barrier(say)
        self.door = Door(self.events, door, self.begin_to_hear, say, MOST_SILENT_ASKERS)

    def run(self) -> None:
        if self.channel:
            self.events.register(self.channel.socket, selectors.EVENT_READ, self.hear_serve)
        else:
            self.events.register(sys.stdin, selectors.EVENT_READ, self.hear_input)
        while True:
            self.turn()

    def turn(self) -> None:
        """A turn of the loop. What an event or a duty raises costs that one alone."""
        for key in self.barrier.select(self.events, self.linger / 4):
            self.barrier.event(self.events, key)
        for duty in (self.tell_lost, self.close_dropped, self.end_if_over, self.door.tend, sys.stderr.flush):
            self.barrier.duty(duty)

    def forsake(self, source: socket.socket) -> None:
        """A source has failed again and again. Without prefork-serve it ends, and is started again."""
        if source not in self.held and self.channel and source is self.channel.socket:
            sys.exit(1)
        self.let_go(source)

    def begin_to_hear(self, holder: socket.socket) -> None:
        self.events.register(holder, selectors.EVENT_READ, self.hear)
        self.hear(holder)

    def hear(self, holder: socket.socket) -> None:
        """Hears the address that a holder asks for or gives up, or that it has gone."""
        try:
            text = holder.recv(LONGEST_ADDRESS).decode()
        except (OSError, UnicodeDecodeError):
            text = ""
        if not text:
            self.let_go(holder)
        elif text == ERRORS:
            self.give_errors(holder)
        elif text == Packet.INHERITS:
            self.bequeath(holder)
        elif text == Packet.ENDS and self.is_orphan:
            # The sockets are kept by another one, and the files are its own.
            sys.exit(0)
        elif text.startswith(GIVES_UP):
            self.give_up(holder, text.removeprefix(GIVES_UP))
        else:
            self.give(holder, text)

    def give(self, holder: socket.socket, address: str) -> None:
        """Gives a holder the socket of an address."""
        self.take_given()
        try:
            kept = self.kept.get(address) or self.opened(address)
        except (OSError, OverflowError, ValueError) as refusal:
            self.refuse(holder, address, getattr(refusal, "strerror", None) or str(refusal))
            return
        held = self.held.setdefault(holder, set())
        if kept not in held:
            self.begin_to_count()
            held.add(kept)
            kept.holders += 1
        if kept.is_closing and self.channel:
            kept.is_closing = False
            self.channel.tell(Packet.OPENED + address, kept.socket)
        try:
            socket.send_fds(holder, [b"ok"], [kept.socket.fileno()])
        except OSError:
            self.let_go(holder)

    def begin_to_count(self) -> None:
        """Somebody is about to hold a socket. Time in which nobody held any is not counted of the others: who asks for this
        one may ask for those next."""
        if not self.is_any_held():
            for kept in self.kept.values():
                kept.free_since = max(kept.free_since, time.monotonic())

    def is_any_held(self) -> bool:
        return any(kept.holders for kept in self.kept.values())

    def take_given(self) -> None:
        """Hears what prefork-serve has said before it gives an address: the socket may be among those that are given, or
        are to be closed."""
        while self.channel and has_said(self.channel.socket):
            self.hear_serve(self.channel.socket)

    def opened(self, address: str) -> KeptSocket:
        is_again = address in self.dropped
        kept = self.kept[address] = KeptSocket(address, listening(address, self.wanted.get(address, Wanted()).over(self.usual), is_again))
        kept.free_since = time.monotonic()
        if self.channel:
            self.channel.tell(Packet.OPENED + address, kept.socket)
        return kept

    def give_errors(self, holder: socket.socket) -> None:
        try:
            socket.send_fds(holder, [b"ok"], [sys.stderr.fileno()])
        except OSError:
            pass
        self.let_go(holder)

    def bequeath(self, heir: socket.socket) -> None:
        """Gives all sockets to the next prefork-serve."""
        self.take_given()
        if not self.is_orphan:
            self.let_go(heir)
            return
        heir.settimeout(HEIR_SECONDS)
        self.held[heir] = set(self.kept.values())
        try:
            for address, kept in self.kept.items():
                kept.holders += 1
                socket.send_fds(heir, [(Packet.OPENED + address).encode()], [kept.socket.fileno()])
            heir.send(Packet.ENDS.encode())
            heir.setblocking(False)
        except OSError:
            self.let_go(heir)

    def outlive(self, channel: Channel) -> None:
        """prefork-serve was killed. Workers that serve on have the sockets, and the next start asks for them."""
        self.events.unregister(channel.socket)
        channel.socket.close()
        self.channel, self.is_orphan = None, True
        for kept in self.kept.values():
            kept.is_closing = False

    def end_if_over(self) -> None:
        """Without prefork-serve it ends with the last holder. One that has been given sockets knows not who holds them: the
        files stay then."""
        if not self.is_orphan or self.is_any_held():
            return
        if any(kept.has_strangers for kept in self.kept.values()):
            sys.exit(0)
        self.leave()

    def refuse(self, holder: socket.socket, address: str, reason: str) -> None:
        if self.channel:
            self.channel.tell(f"{Packet.REFUSED}{address}: {reason}")
        try:
            holder.send(f"no {reason}".encode())
        except OSError:
            pass
        self.let_go(holder)

    def let_go(self, holder: socket.socket) -> None:
        self.events.unregister(holder)
        holder.close()
        for kept in self.held.pop(holder, ()):
            kept.lose_holder()
            self.has_lost = True

    def give_up(self, holder: socket.socket, address: str) -> None:
        """A holder does not hold an address any more, and goes on to hold its others."""
        for kept in [kept for kept in self.held.get(holder, ()) if kept.address == address]:
            self.held[holder].remove(kept)
            kept.lose_holder()

    def tell_lost(self) -> None:
        if self.has_lost and self.channel:
            self.channel.tell(Packet.LOST)
        self.has_lost = False

    def close_dropped(self) -> None:
        if not self.is_any_held():
            return
        for kept in list(self.kept.values()):
            if kept.is_free(self.linger) and not kept.is_closing:
                self.begin_to_close(kept)

    def begin_to_close(self, kept: KeptSocket) -> None:
        """Closes a socket that nobody holds, after prefork-serve: as long as that has it the address can't be opened anew."""
        if self.channel:
            kept.is_closing = True
            self.channel.tell(Packet.FREED + kept.address)
        else:
            self.close(kept)

    def take_closed(self, address: str) -> None:
        """prefork-serve has closed its copy. If a worker has asked since, this one stays."""
        kept = self.kept.get(address)
        if kept and kept.is_closing:
            self.close(kept)

    def close(self, kept: KeptSocket) -> None:
        """Closes a socket. systemd may have it for a moment yet: the address can be opened anew beside that. One that was given
        may be systemd's for good, and is left as it is."""
        if not kept.is_given:
            seal(kept.socket)
            self.dropped.add(kept.address)
        kept.remove()
        del self.kept[kept.address]

    def drop(self, address: str) -> None:
        """Closes an address that no configuration names. Workers that finish may still hold it."""
        self.dropped.add(address)
        if kept := self.kept.pop(address, None):
            kept.remove()
            if self.channel:
                self.channel.tell(Packet.CLOSED + address)

    def renew(self, address: str) -> None:
        """Opens a Unix socket anew whose path has been removed. Those who hold the old one serve its queue."""
        kept = self.kept.get(address)
        if not kept or (kept.file and file_of(address) == kept.file):
            return
        try:
            self.opened(address)
        except OSError as refusal:
            say(f"{address} is not opened anew: {refusal.strerror}")

    def hear_serve(self, _: socket.socket) -> None:
        if not self.channel:
            return
        said, given = self.channel.hear()
        kind, address = said[:1], said[1:]
        if kind == Packet.OPENED and given:
            self.kept[address] = KeptSocket(address, given, has_strangers=True)
        elif kind == Packet.SETTLED:
            for kept in self.kept.values():
                kept.settle()
        elif kind == Packet.CLOSED:
            self.take_closed(address)
        elif kind == Packet.DROPS:
            self.drop(address)
        elif kind == Packet.RENEWS:
            self.renew(address)
        elif kind == Packet.WANTS:
            named, options = json.loads(address)
            self.wanted[named] = Wanted(**options)
        elif kind == Packet.ASKS:
            self.channel.tell(Packet.ANSWERS)
        elif kind == Packet.ENDS:
            self.leave()
        else:
            self.outlive(self.channel)

    def hear_input(self, given: io.TextIOBase) -> None:
        if not os.read(given.fileno(), 4096):
            self.leave()

    def leave(self) -> None:
        for kept in self.kept.values():
            kept.remove()
        sys.exit(0)


def own_door(path: str) -> socket.socket:
    """A door at a path. It has its name once it listens: a client that finds it can connect."""
    door = socket.socket(socket.AF_UNIX, socket.SOCK_SEQPACKET)
    new = os.path.join(os.path.dirname(path), f".{os.getpid()}")
    door.bind(new)
    os.chmod(new, 0o600)
    door.listen(QUEUE)
    os.rename(new, path)
    return door


def mode_of(text: str) -> int:
    """A mode in octal digits."""
    mode = int(text, 8)
    if not 0 <= mode <= 0o777:
        raise ValueError(text)
    return mode


def group_of(text: str) -> int:
    """The number of a group, by its name or as it is. Raises KeyError."""
    return int(text) if text.isdigit() else grp.getgrnam(text).gr_gid


def add_socket_options(parser: "argparse.ArgumentParser") -> None:
    from argparse import ArgumentTypeError

    def known_group(text: str) -> int:
        try:
            return group_of(text)
        except KeyError as fault:
            raise ArgumentTypeError(f"there is no group {text}") from fault

    mode = "the mode of Unix sockets, such as 660"
    parser.add_argument(MODE_OPTION, type=mode_of, metavar="MODE", help=mode)
    group = "the group of Unix sockets; the user must be in it"
    parser.add_argument(GROUP, type=known_group, metavar="GROUP", help=group)


def socket_options(given: "argparse.Namespace") -> list[str]:
    """The same options again, for a keeper."""
    found = [MODE_OPTION, f"{given.socket_mode:o}"] if given.socket_mode is not None else []
    return found + ([GROUP, str(given.socket_group)] if given.socket_group is not None else [])


class KeeperOptions:
    """What a keeper is told."""

    def __init__(self) -> None:
        self.defer_accept, self.path, self.linger = False, "", LINGER
        self.socket_mode: int | None = None
        self.socket_group: int | None = None
        self.door: int | None = None


def told_by_serve(words: list[str]) -> KeeperOptions:
    """What prefork-serve tells the keeper that it starts: it has looked at the options. (What reads those of people would take a
    tenth of the keeper's memory.)"""
    told = KeeperOptions()
    *options, told.path = words
    while options:
        option = options.pop(0)
        if option == DEFER:
            told.defer_accept = True
        elif option == MODE_OPTION:
            told.socket_mode = mode_of(options.pop(0))
        elif option == GROUP:
            told.socket_group = group_of(options.pop(0))
        elif option == DOOR:
            told.door = int(options.pop(0))
        else:
            raise ValueError(option)
    return told


def arguments() -> KeeperOptions:
    """What people tell it."""
    import argparse

    parser = argparse.ArgumentParser(prog="prefork-keeper", description="Keeps the listening sockets of a service.")
    parser.add_argument("--version", action="version", version=f"prefork-keeper {VERSION}")
    parser.add_argument(DEFER, action="store_true", help="accept a TCP connection once its first bytes are there")
    add_socket_options(parser)
    door = "the number of the socket at PATH, as prefork-serve gives it; standard input is a socket to prefork-serve"
    parser.add_argument(DOOR, type=int, metavar="N", help=door)
    parser.add_argument("path", metavar="PATH", help="where workers ask")
    linger = f"how long a socket that nobody holds stays open ({LINGER:g})"
    parser.add_argument("linger", type=float, nargs="?", default=LINGER, metavar="SECONDS", help=linger)
    return parser.parse_args(namespace=KeeperOptions())


def take_descriptors() -> None:
    """As many as the system allows: each worker has one here, or one for each of its addresses."""
    _, most = resource.getrlimit(resource.RLIMIT_NOFILE)
    resource.setrlimit(resource.RLIMIT_NOFILE, (most, most))


def main() -> int:
    take_standard()
    given = told_by_serve(sys.argv[1:]) if DOOR in sys.argv else arguments()
    set_title("prefork-keeper")
    take_descriptors()
    if given.socket_mode is not None:
        os.umask(0o777 & ~given.socket_mode)
    is_of_serve = given.door is not None
    door = socket.socket(fileno=given.door) if is_of_serve else own_door(given.path)
    try:
        SocketKeeper(door, given.linger, given.defer_accept, Channel() if is_of_serve else None, given.socket_group).run()
    except Broken as fault:
        say(str(fault))
        return 1
    return 0

"""The keeper of a service, as prefork-serve keeps it: started again whenever it has ended, with the same sockets.

prefork-serve has a copy of each listening socket, and the door at which workers ask. So connections wait, and workers
wait for their answer, while a keeper starts. systemd is given the sockets too, if it stores them, so that they outlive
prefork-serve.
"""
import os
import select
import selectors
import socket
import subprocess
import time
from typing import TYPE_CHECKING, Any

from . import places
from .burying import started
from .configuration import Configuration
from .folder import Folder, plain, say
from .holding import Hold
from .packets import LONGEST_ADDRESS, Packet
from .sockets import QUEUE, file_of, seal, given_sockets
from .systemd import may_store, store, unstore

if TYPE_CHECKING:
    from .listeners import Listeners

# How long it may take to answer, before it is killed; how often it is asked, and the least time between two starts.
KEEPER_ANSWER_SECONDS, ASK_SECONDS, KEEPER_PAUSE_SECONDS = 10.0, 1.0, 1.0
# How long the first one may take to open an address of the start.
START_SECONDS = 60.0
# How long workers may take to accept the connections that wait at a stop, and how often it is looked.
KEEPER_DRAIN_SECONDS, KEEPER_LOOK_SECONDS = 1.0, 0.01


class KeeperProcess:
    """A keeper that runs, or is about to, and the sockets that it has."""

    def __init__(
        self, events: selectors.BaseSelector, folder: Folder, options: list[str], stored: dict[str, socket.socket],
        inherited: dict[str, socket.socket],
    ):
        self.events, self.folder, self.options, self.held = events, folder, options, stored | inherited
        # Those that systemd has opened or stored: it gives them to the next start. And those that take no new connection.
        self.of_systemd, self.sealed = set(stored), set[str]()
        # The files of Unix sockets.
        self.files = {address: file_of(address) for address in self.held}
        # The keeper and the socket to it, once it is started; when it was begun and asked last, and whether it owes an
        # answer.
        self.process: Any = None
        self.channel: Any = None
        self.begun, self.asked, self.owes, self.restarts = 0.0, 0.0, False, -1
        # Why addresses were not opened since the last word, and the connection that holds those of the start.
        self.refusals: list[str] = []
        self.of_start = Hold(START_SECONDS)
        # What is wanted of sockets, once a configuration says something of it.
        self.listeners: "Listeners | None" = None
        self.is_heir = bool(inherited)
        # Whether a worker may have ended since that was looked at.
        self.lost = False
        # Addresses that nobody holds, and whether they stay open: it is open then which addresses the next workers have.
        self.freed, self.is_holding_back = set[str](), False
        self.open_door()
        for address, one in self.held.items():
            store(address, one)
        self.begin()

    def open_door(self) -> None:
        """Under its own name once it listens: a client that finds it can connect."""
        new = self.folder.path / f".{os.getpid()}"
        self.door = socket.socket(socket.AF_UNIX, socket.SOCK_SEQPACKET)
        self.door.bind(str(new))
        new.chmod(0o600)
        self.door.listen(QUEUE)
        new.rename(self.folder.keeper)
        self.file = file_of(str(self.folder.keeper))

    def mend(self) -> None:
        """Opens the door again whose name somebody has removed. The next keeper has it."""
        if self.process and file_of(str(self.folder.keeper)) != self.file:
            say(f"{self.folder.keeper} is made again")
            self.door.close()
            self.open_door()
            self.bury()

    def begin(self) -> None:
        self.begun, self.restarts = time.monotonic(), self.restarts + 1
        self.freed.clear()
        self.channel, theirs = socket.socketpair(socket.AF_UNIX, socket.SOCK_SEQPACKET)
        command = [*places.in_python(places.KEEPER), *self.options, "--door", str(self.door.fileno()), self.folder.keeper]
        try:
            self.channel.setblocking(False)
            self.events.register(self.channel, selectors.EVENT_READ, self.hear)
            self.process = started(command, stdin=theirs, start_new_session=True, pass_fds=[self.door.fileno()])
        except OSError as fault:
            if is_heard(self.events, self.channel):
                self.events.unregister(self.channel)
            self.channel.close()
            say(f"the keeper is not started: {fault.strerror}")
            return
        finally:
            theirs.close()
        if self.listeners:
            self.listeners.tell_again()
        for address, one in self.held.items():
            self.tell(Packet.OPENED + address, one)

    def wanted(self, found: Configuration) -> "Listeners | None":
        """Who sees to the options of listeners, if this configuration or one before it has some; that of a killed service too."""
        if not self.listeners and (found.listeners or self.is_heir):
            from .listeners import Listeners
            self.listeners = Listeners(self)
        return self.listeners

    def tell_options(self, text: str) -> None:
        if self.process:
            self.tell(Packet.WANTS + text)

    def tell(self, text: str, one: socket.socket | None = None) -> None:
        """Tells the keeper something. One that has ended, or hears nothing, is found by what it owes."""
        try:
            socket.send_fds(self.channel, [text.encode()], [one.fileno()] if one else [])
        except OSError:
            pass

    def hear(self, _: socket.socket) -> None:
        """What the keeper says of its sockets."""
        try:
            said, given = socket.recv_fds(self.channel, LONGEST_ADDRESS + 200, 1)[:2]
        except OSError:
            said, given = b"", []
        kind, text = said.decode()[:1], said.decode()[1:]
        if kind == Packet.OPENED and given:
            self.forget(text)
            self.held[text] = given_sockets(given)[0]
            self.files[text] = file_of(text)
            store(text, self.held[text])
        elif kind == Packet.CLOSED:
            self.forget(text)
        elif kind == Packet.FREED:
            self.freed.add(text)
            self.close_freed()
        elif kind == Packet.REFUSED:
            self.refusals.append(plain(text))
            say(f"an address is not opened: {plain(text)}")
        elif kind == Packet.ANSWERS:
            self.owes = False
        elif kind == Packet.LOST:
            self.lost = True
        elif not kind:
            self.bury()

    def forget(self, address: str) -> None:
        """Closes the copy of a socket that the keeper has closed, or opened anew."""
        if one := self.held.pop(address, None):
            unstore(address)
            one.close()
        self.sealed.discard(address)
        self.freed.discard(address)
        self.files.pop(address, None)

    def hold_back(self) -> None:
        """From now on no address is closed because nobody holds it. A word goes over to another configuration, and may come back;
        or the master has died, and the next one has the configuration that was accepted last."""
        self.is_holding_back = True

    def let_close(self) -> None:
        self.is_holding_back = False
        self.close_freed()

    def close_freed(self) -> None:
        for address in [] if self.is_holding_back else list(self.freed):
            self.forget(address)
            self.tell(Packet.CLOSED + address)

    def drop_others(self, addresses: list[str]) -> None:
        """The configuration that runs names these addresses. At the others new connections are refused from now on, though
        workers that finish may still have the sockets. A socket of systemd's is closed later, and never refuses."""
        for address in set(self.held) - set(addresses) - self.of_systemd:
            self.drop(address)

    def drop(self, address: str) -> None:
        seal(self.held[address])
        if self.process:
            self.tell(Packet.DROPS + address)
        else:
            self.forget(address)

    def renew(self) -> None:
        """A new generation follows: Unix sockets whose paths have been removed are opened anew for it."""
        for address in self.lost_paths():
            self.tell(Packet.RENEWS + address)

    def lost_paths(self) -> list[str]:
        """The Unix sockets to which their paths no longer lead."""
        found = [address for address in self.held if address.startswith("/") and address not in self.of_systemd]
        return [address for address in found if not self.files[address] or file_of(address) != self.files[address]]

    def seal(self) -> None:
        """The service is about to stop: from now on new connections are refused, and those that wait stay. Where systemd
        may store the sockets, connections wait for the next start."""
        for address in set(self.held) - self.of_systemd - self.sealed:
            if may_store():
                continue
            self.sealed.add(address)
            seal(self.held[address])
            if address.startswith("/") and file_of(address) == self.files[address]:
                try:
                    os.unlink(address)
                except OSError:
                    pass

    def drain(self) -> None:
        """Lets workers accept the connections that wait at sealed addresses, for a while: a stop would reset them."""
        deadline, looks = time.monotonic() + KEEPER_DRAIN_SECONDS, 0
        while looks < 2 and time.monotonic() < deadline:
            watched = select.poll()
            for address in self.sealed:
                watched.register(self.held[address], select.POLLIN)
            looks = 0 if watched.poll(0) else looks + 1
            time.sleep(KEEPER_LOOK_SECONDS)

    def forsake(self, _: socket.socket) -> None:
        """What it says has raised again and again."""
        self.bury()

    def bury(self) -> None:
        """The keeper has ended, or hears no more."""
        process, self.process, self.owes = self.process, None, False
        if is_heard(self.events, self.channel):
            self.events.unregister(self.channel)
        self.channel.close()
        process.kill()
        say(f"the keeper has ended with status {process.wait()}, and is started again")

    def tend(self) -> None:
        """Starts a keeper if none runs, and asks the one that does whether it still answers."""
        now = time.monotonic()
        if not self.process:
            if now - self.begun > KEEPER_PAUSE_SECONDS:
                self.begin()
        elif self.owes and now - self.asked > KEEPER_ANSWER_SECONDS:
            say(f"the keeper has not answered for {KEEPER_ANSWER_SECONDS:g} seconds")
            self.bury()
        elif not self.owes and now - self.asked > ASK_SECONDS:
            self.asked, self.owes = now, True
            self.tell(Packet.ASKS)

    def take_lost(self) -> bool:
        """Whether a worker may have ended since this was asked last."""
        found, self.lost = self.lost, False
        return found

    def hold(self, addresses: list[str]) -> None:
        """Opens the addresses of the start, and holds them until workers do. Raises Unfit if one can't be opened."""
        for address in addresses:
            self.of_start.take(address).close()

    def release(self) -> None:
        self.of_start.close()

    def settle(self) -> None:
        """All workers have been started since: each that is to hold a socket has asked for it."""
        if self.process:
            self.tell(Packet.SETTLED)

    def end(self) -> None:
        """Ends the keeper, and with it the sockets."""
        self.release()
        self.door.close()
        if not self.process:
            return
        self.tell(Packet.ENDS)
        self.channel.close()
        try:
            self.process.wait(KEEPER_ANSWER_SECONDS)
        except subprocess.TimeoutExpired:
            self.process.kill()
            self.process.wait()


def is_heard(events: selectors.BaseSelector, source: socket.socket) -> bool:
    return source.fileno() >= 0 and source in events.get_map()

"""The preloaders of a service: those of the generation that runs, and those of a generation that is to follow.

A preloader has a socket of its own from the start, to which shims connect. It is started by the first of them, so that
no word that starts no worker loads an application. prefork-serve has a copy of the socket, so that those that wait outlive
a preloader that is killed. One that fails to load refuses those that wait, and the next worker has it loaded again.
"""
import os
import selectors
import socket
import time
from typing import Any

from . import places
from .burying import started
from .configuration import Group
from .folder import Folder, say
from .systemd import OF_SYSTEMD

PRELOADER_QUEUE = 1024
# How long a loaded preloader may let a shim wait at its socket, and fork nobody, before it is killed.
HANG_SECONDS = 10.0
# How much longer than its application may load a preloader may run on, which shows its stacks then.
GRACE_SECONDS = 2.0
LONGEST_TEXT = 4096


class KeptPreloader:
    """The socket of a preloader, and the preloader once a shim has come."""

    def __init__(self, events: selectors.BaseSelector, folder: Folder, number: int, group: Group, seconds: float):
        self.events, self.group, self.seconds = events, group, seconds
        self.path = folder.path / f"preloader.{number}"
        self.fork_socket = socket.socket(socket.AF_UNIX, socket.SOCK_SEQPACKET)
        new = folder.path / f".{os.getpid()}"
        new.unlink(missing_ok=True)
        self.fork_socket.bind(str(new))
        new.chmod(0o600)
        self.fork_socket.listen(PRELOADER_QUEUE)
        new.rename(self.path)
        # The preloader, the end of its input, its output, and a descriptor of its process.
        self.process: Any = None
        self.life, self.said, self.opened = -1, -1, -1
        self.heard, self.is_loaded, self.is_ended, self.begun, self.starts = "", False, False, 0.0, 0
        # Since when a shim has waited at the socket of a loaded preloader that has said nothing.
        self.waiting_since = 0.0
        self.events.register(self.fork_socket, selectors.EVENT_READ, self.begin)

    def begin(self, _: socket.socket) -> None:
        """Somebody has come: starts the preloader."""
        self.events.unregister(self.fork_socket)
        life, self.life = os.pipe()
        self.said, said = os.pipe()
        os.set_blocking(self.said, False)
        self.heard, self.is_loaded, self.begun, self.waiting_since = "", False, time.monotonic(), 0.0
        self.starts += 1
        environment = {name: text for name, text in os.environ.items() if not name.startswith(OF_SYSTEMD)}
        environment["PREFORK_FORK_SOCKET"] = str(self.fork_socket.fileno())
        # Not the lock of the folder: workers would have it, and the next service would wait for the last of them.
        given: dict[str, Any] = {"pass_fds": [self.fork_socket.fileno()], "start_new_session": True}
        if place := environment.get("PREFORK_PLACE"):
            # By its path: a symbolic link may lead elsewhere by now.
            given["cwd"] = environment["PWD"] = place
        # (its settings, with secrets, are in memory alone)
        section = os.memfd_create("section") if self.group.settings else -1
        command = [str(places.LAUNCH), "load", str(section)] if section >= 0 else [*self.group.command]
        try:
            if section >= 0:
                os.write(section, self.group.loading())
                given["pass_fds"].append(section)
            self.process = started(command, stdin=life, stdout=said, env=environment, **given)
        except OSError as fault:
            self.heard = f"failed {fault.filename or command[0]}: {fault.strerror}\n"
            self.close_pipes()
            self.refuse_all()
            self.events.register(self.fork_socket, selectors.EVENT_READ, self.begin)
            return
        finally:
            os.close(life)
            os.close(said)
            if section >= 0:
                os.close(section)
        self.opened = os.pidfd_open(self.process.pid)
        self.events.register(self.said, selectors.EVENT_READ, self.hear)
        self.events.register(self.opened, selectors.EVENT_READ, self.bury)

    def hear(self, _: int) -> None:
        try:
            got = os.read(self.said, LONGEST_TEXT)
        except BlockingIOError:
            return
        if not got:
            self.events.unregister(self.said)
            return
        self.waiting_since = 0.0
        if self.is_loaded:
            return
        self.heard = (self.heard + got.decode(errors="replace"))[:LONGEST_TEXT]
        if not self.is_loaded and "loaded\n" in self.heard:
            self.is_loaded = True
            say(f"preloader {self.process.pid} has loaded in {time.monotonic() - self.begun:.2f} s")

    def why(self) -> str:
        """Why the preloader that has ended had not loaded."""
        for line in self.heard.splitlines():
            if line.startswith("failed "):
                return line.removeprefix("failed ")
        if self.is_ended:
            return "its generation has ended"
        if self.process.returncode in (1, -9) and time.monotonic() - self.begun > self.seconds:
            # (it has shown the stacks of its threads)
            return f"the application has not loaded after {self.seconds:g} seconds"
        return f"the preloader has ended with status {self.process.returncode} before it had loaded"

    def bury(self, _: int) -> None:
        """The preloader has ended."""
        self.process.wait()
        if self.said in self.events.get_map():
            self.hear(self.said)
        self.events.unregister(self.opened)
        os.close(self.opened)
        self.close_pipes()
        if self.is_ended:
            self.process = None
            return
        if self.is_loaded:
            say(f"preloader {self.process.pid} has ended with status {self.process.returncode}; its workers serve on, and the "
                "next one that starts has it loaded again, from the files as they are then")
        else:
            self.refuse_all()
        self.process, self.is_loaded = None, False
        self.events.register(self.fork_socket, selectors.EVENT_READ, self.begin)

    def close_pipes(self) -> None:
        if self.said in self.events.get_map():
            self.events.unregister(self.said)
        os.close(self.said)
        self.close_life()

    def close_life(self) -> None:
        if self.life >= 0:
            os.close(self.life)
        self.life = -1

    def refuse_all(self) -> None:
        """Refuses those that wait."""
        self.fork_socket.setblocking(False)
        while True:
            try:
                waiting, _ = self.fork_socket.accept()
            except OSError:
                break
            with waiting:
                try:
                    waiting.send(f"no {self.why()}".encode()[:1000])
                except OSError:
                    pass

    def tend(self) -> None:
        """Kills a preloader that answers nobody, or that has not loaded in time and has not ended by itself."""
        if not self.process or self.is_ended:
            return
        if not self.is_loaded:
            if time.monotonic() - self.begun > self.seconds + GRACE_SECONDS:
                self.process.kill()
            return
        watched = selectors.PollSelector()
        watched.register(self.fork_socket, selectors.EVENT_READ)
        now = time.monotonic()
        if not watched.select(0):
            self.waiting_since = 0.0
        elif not self.waiting_since:
            self.waiting_since = now
        elif now - self.waiting_since > HANG_SECONDS:
            say(f"preloader {self.process.pid} has not answered for {HANG_SECONDS:g} seconds, and is killed")
            self.process.kill()
            self.waiting_since = 0.0

    def end(self) -> None:
        """No worker is to be forked any more. A preloader that has workers stays until they have ended, and buries them; one
        that loads has none."""
        if self.is_ended:
            return
        self.is_ended = True
        if self.fork_socket in self.events.get_map():
            self.events.unregister(self.fork_socket)
        self.refuse_all()
        self.fork_socket.close()
        self.path.unlink(missing_ok=True)
        self.close_life()
        if self.process and not self.is_loaded:
            self.process.kill()


class Preloading:
    """The preloaders of what runs, and of what is to follow: one for each group that has one, by its place among them."""

    def __init__(self, events: selectors.BaseSelector, folder: Folder, seconds: float):
        self.events, self.folder, self.seconds = events, folder, seconds
        self.count = 0
        self.now: dict[int, KeptPreloader] = {}
        self.next: dict[int, KeptPreloader] = {}
        # Those whose generation has ended, and that wait for its last worker.
        self.leaving: list[KeptPreloader] = []

    def renew(self) -> None:
        """A generation is to follow, which has new preloaders."""
        self.drop(self.next)
        self.next = {}

    def words(self, is_next: bool, at: int, group: Group) -> list[str]:
        """The command of a worker of a group: in the generation that runs, or in the one that is to follow."""
        kept = self.next if is_next else self.now
        if at not in kept:
            self.count += 1
            kept[at] = KeptPreloader(self.events, self.folder, self.count, group, group.ready_within or self.seconds)
        return [str(places.SHIM), str(kept[at].path)]

    def drop(self, kept: dict[int, KeptPreloader]) -> None:
        for one in kept.values():
            one.end()
            self.leaving.append(one)

    def settle(self, has_changed: bool) -> None:
        """The new generation runs, or the old one does."""
        self.drop(self.now if has_changed else self.next)
        self.now, self.next = self.next if has_changed else self.now, {}

    def tend(self) -> None:
        for one in (*self.now.values(), *self.next.values()):
            one.tend()
        self.leaving = [one for one in self.leaving if one.process]

    def status(self) -> list[dict[str, Any]]:
        """The preloaders that run: the process, whether it has loaded, and whether its generation has ended."""
        found = [one for one in (*self.now.values(), *self.next.values(), *self.leaving) if one.process]
        return [
            {"process": one.process.pid, "is_loaded": one.is_loaded, "is_leaving": one.is_ended, "starts": one.starts}
            for one in found
        ]

    def end(self) -> None:
        self.drop(self.now)
        self.drop(self.next)
        self.now, self.next = {}, {}

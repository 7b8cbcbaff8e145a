"""A preloader: a process that has loaded an application, and forks each worker of its generation.

prefork-serve starts it. Its input is open as long as its generation may need workers; on its output it says `loaded`, or
`failed` and why, and `forked` for each worker; PREFORK_FORK_SOCKET is the number of a socket that listens. prefork-shim connects there for each worker, is
told `give`, and sends `fork NAME KEEPER` with four descriptors: the input, output and errors of the worker, and the end of a pipe
that is closed when the shim ends, and with which the worker ends then. The worker answers `pid NUMBER` on that
connection, and may say `ended STATUS` there before it ends. See docs/workers/preloaders.md.
"""
import fcntl
import gc
import os
import selectors
import signal
import socket
import stat
import threading
import time
from collections.abc import Callable

FORK_SOCKET = "PREFORK_FORK_SOCKET"
# Of Linux, and not in the module fcntl: which signal tells that something has happened to a descriptor.
F_SETSIG = 10
LONGEST_PRELOADER_LINE, HANDED = 200, 4


class Lifeline:
    """What ties a worker to its shim: each ends when the other one does."""

    def __init__(self, name: str, keeper: str, connection: socket.socket, lifeline: int):
        self.name, self.keeper, self.connection, self.end = name, keeper, connection, lifeline

    def fasten(self) -> None:
        """The system kills this process when the shim ends: also if it hangs, or was stopped."""
        try:
            fcntl.fcntl(self.end, fcntl.F_SETOWN, os.getpid())
            fcntl.fcntl(self.end, F_SETSIG, signal.SIGKILL)
            fcntl.fcntl(self.end, fcntl.F_SETFL, fcntl.fcntl(self.end, fcntl.F_GETFL) | os.O_ASYNC)
        except OSError:
            # A system without that: the thread that hears the master looks, too.
            pass
        if self.is_broken():
            os._exit(1)
        self.tell(f"pid {os.getpid()}")
        os.register_at_fork(after_in_child=self.close)

    def is_broken(self) -> bool:
        watched = selectors.PollSelector()
        watched.register(self.end, selectors.EVENT_READ)
        return bool(watched.select(0))

    def tell(self, text: str) -> None:
        try:
            self.connection.send(text.encode())
        except OSError:
            # The shim has ended, and so does this process.
            pass

    def close(self) -> None:
        """In a process that the application forks."""
        self.connection.close()
        try:
            os.close(self.end)
        except OSError:
            pass


class Preloader:
    """The socket at which shims ask for workers, and the workers that were forked and run."""

    def __init__(self) -> None:
        # Away from the numbers at which the application reads and prints.
        self.life, self.said = os.dup(0), os.dup(1)
        nothing = os.open(os.devnull, os.O_RDONLY)
        os.dup2(nothing, 0)
        os.close(nothing)
        os.dup2(2, 1)
        self.fork_socket = socket.socket(fileno=int(os.environ[FORK_SOCKET]))
        self.fork_socket.setblocking(False)
        os.set_inheritable(self.fork_socket.fileno(), False)
        # The workers by the descriptors of their processes.
        self.workers: dict[int, tuple[int, str]] = {}
        self.events = selectors.DefaultSelector()
        # Forked by the application while it loads, a process must not keep the socket open.
        self.is_forking = False
        os.register_at_fork(after_in_child=self.leave_to_parent)
        self.before = descriptors()

    def leave_to_parent(self) -> None:
        """In a process that the application has forked, and not this module: the preloader is not its own."""
        if not self.is_forking and self.events:
            self.forget()

    def fail(self, why: str) -> None:
        self.tell(f"failed {why}".replace("\n", " ")[:1000])

    def tell(self, text: str) -> None:
        try:
            os.write(self.said, f"{text}\n".encode())
        except OSError:
            # prefork-serve has gone. The end of the input follows.
            pass

    def run(self, warn: Callable[[str], None]) -> Lifeline:
        """Forks workers until the generation needs no more and the last one has ended. Returns in each worker."""
        for text in self.doubts():
            warn(text)
        # (without a collection: it would leave holes in shared memory, which each worker would fill for itself)
        gc.freeze()
        self.tell("loaded")
        self.events.register(self.life, selectors.EVENT_READ, self.hear_life)
        self.events.register(self.fork_socket, selectors.EVENT_READ, self.accept_shim)
        while self.fork_socket.fileno() >= 0 or self.workers:
            for key, _ in self.events.select():
                lifeline: Lifeline | None = key.data(key.fileobj)
                if lifeline:
                    return lifeline
        os._exit(0)

    def doubts(self) -> list[str]:
        """What an application has begun while it loaded that workers do not have, or have in common."""
        found = []
        threads = [one.name for one in threading.enumerate() if one is not threading.main_thread()]
        native = native_threads(len(threads))
        if threads or native > 0:
            names = ", ".join(threads) or f"{native} of a library"
            found.append(f"the application has started threads ({names}). Workers do not have them: start them after the fork")
        for number, what in new_of(self.before):
            found.append(f"the application has opened {what} (descriptor {number}). All workers share it: open it after the fork")
        return found

    def hear_life(self, _: int) -> None:
        """prefork-serve says nothing: this is the end of the generation, or of the service."""
        if not os.read(self.life, 4096):
            self.events.unregister(self.life)
            self.events.unregister(self.fork_socket)
            self.fork_socket.close()

    def accept_shim(self, listener: socket.socket) -> None:
        try:
            connection, _ = listener.accept()
        except OSError:
            return
        connection.setblocking(False)
        try:
            connection.send(b"give")
        except OSError:
            connection.close()
            return
        self.events.register(connection, selectors.EVENT_READ, self.hear)

    def hear(self, connection: socket.socket) -> Lifeline | None:
        """A shim hands over its descriptors, or has gone."""
        self.events.unregister(connection)
        try:
            said, given, _, _ = socket.recv_fds(connection, LONGEST_PRELOADER_LINE, HANDED)
        except OSError:
            said, given = b"", []
        word, name, keeper = [*os.fsdecode(said).split(" ", 2), "", ""][:3]
        if word == "fork" and len(given) == HANDED:
            return self.fork(name, keeper, connection, given)
        self.put_away(connection, given)
        return None

    def fork(self, name: str, keeper: str, connection: socket.socket, given: list[int]) -> Lifeline | None:
        self.is_forking = True
        try:
            number = os.fork()
        except OSError as fault:
            self.is_forking = False
            self.refuse(connection, f"no process for the worker: {fault.strerror}")
            self.put_away(connection, given)
            return None
        if not number:
            return self.become(name, keeper, connection, given)
        self.is_forking = False
        # prefork-serve sees that it goes on.
        self.tell("forked")
        self.put_away(connection, given)
        opened = os.pidfd_open(number)
        self.workers[opened] = number, name
        self.events.register(opened, selectors.EVENT_READ, self.bury)
        return None

    def refuse(self, connection: socket.socket, why: str) -> None:
        try:
            connection.send(f"no {why}".encode())
        except OSError:
            # The shim has gone.
            pass

    def put_away(self, connection: socket.socket, given: list[int]) -> None:
        for one in given:
            os.close(one)
        connection.close()

    def bury(self, opened: int) -> None:
        number, _ = self.workers.pop(opened)
        self.events.unregister(opened)
        os.close(opened)
        try:
            os.waitpid(number, 0)
        except ChildProcessError:
            # The application has said that nobody waits for children.
            pass

    def become(self, name: str, keeper: str, connection: socket.socket, given: list[int]) -> Lifeline:
        """In the worker."""
        *streams, lifeline = given
        for to, one in enumerate(streams):
            os.dup2(one, to)
            os.close(one)
        self.forget(connection)
        connection.setblocking(True)
        return Lifeline(name, keeper, connection, lifeline)

    def forget(self, kept: socket.socket | None = None) -> None:
        """Closes what belongs to the preloader alone."""
        for key in list(self.events.get_map().values()):
            one = key.fileobj
            if isinstance(one, socket.socket):
                if one is not kept:
                    one.close()
            elif isinstance(one, int) and one != self.life:
                os.close(one)
        self.events.close()
        self.fork_socket.close()
        os.close(self.life)
        os.close(self.said)
        self.events = None  # type: ignore[assignment]


def native_threads(known: int) -> int:
    """How many threads there are that Python does not know. One that has just ended may still be there for a moment."""
    deadline = time.monotonic() + 0.2
    while (found := len(os.listdir("/proc/self/task")) - 1 - known) > 0 and time.monotonic() < deadline:
        time.sleep(0.005)
    return found


def descriptors() -> dict[int, str]:
    """The open descriptors, with what they lead to."""
    found = {}
    for name in os.listdir("/proc/self/fd"):
        try:
            found[int(name)] = os.readlink(f"/proc/self/fd/{name}")
        except OSError:
            # That of the list itself.
            continue
    return found


def new_of(before: dict[int, str]) -> list[tuple[int, str]]:
    """Connections, and files that are read and written, such as databases, that were opened since."""
    found = []
    for number, what in descriptors().items():
        if before.get(number) == what:
            continue
        try:
            mode, access = os.fstat(number).st_mode, fcntl.fcntl(number, fcntl.F_GETFL) & os.O_ACCMODE
        except OSError:
            continue
        if stat.S_ISSOCK(mode):
            found.append((number, "a connection"))
        elif stat.S_ISREG(mode) and access == os.O_RDWR:
            found.append((number, what))
    return found

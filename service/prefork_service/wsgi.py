"""prefork-wsgi [OPTIONS] MODULE:APP

A worker of a Prefork master that serves a WSGI application, with waitress as its HTTP server.

- `print`, and processes that the application starts, have nothing of the master's pipes.
- A kept connection may be idle for --keep seconds (75), and for --idle seconds (2) while the worker finishes.
- If all threads have been at one request for more than --timeout seconds (30), the worker ends, with the stacks of
  its threads on standard error. The master starts another one.
- A request that has taken more than --request-timeout seconds (none) ends its worker, once the others are answered.
- An application that has not loaded --ready-within seconds (30) after `go` ends the worker: the reload is rolled back.

With --preloader it is no worker but the preloader of its generation: it loads the application, and forks each worker.
"""
import argparse
import faulthandler
import grp
import importlib
import importlib.util
import logging
import os
import pwd
import socket
import sys
import threading
import time
import traceback
from collections.abc import Callable
from typing import Any, Protocol

from . import VERSION, access_log, convention
from .access_log import AccessLog
from .convention import SURVIVAL_LOOK, Pipes, Survival, clear_environment, is_known_late, note_late, note_ready, open_files, warn
from .holding import Hold, Unfit
from .probing import probe, warm
from .proxies import corrected, proxy_of
from .preloader import Preloader, Lifeline
from .titles import set_title
from .traffic import Counter

# The longest time of a request, a day.
MOST_REQUEST_SECONDS = 86400
# The lifeline of a worker that was forked by a preloader.
lifeline: Lifeline | None = None


class Serving(Protocol):
    """A server that serves, as the thread sees it that hears the master: waitress's, and that of a preloader for another."""

    is_told_to_finish: bool

    def close(self, address: str) -> None:
        """Accept no more at an address."""

    def finish(self) -> None:
        """Accept no more, and end once all is answered."""

    def is_stuck(self, timeout: float) -> bool:
        """Whether it has answered nothing for so long."""

    def give_up(self, seconds: float) -> list[str]:
        """End without the requests that have taken so long; why."""

    def reopen(self) -> None:
        """Open its log files anew."""

    def settle(self) -> None:
        """Write down what was answered. The process ends."""


class Worker:
    """The master's lines, heard by a thread of their own. The application is loaded and served by the main thread."""

    def __init__(self, given: argparse.Namespace, pipes: Pipes):
        self.given, self.pipes, self.start, self.title = given, pipes, "", "worker"
        # The server, once the application is loaded.
        self.server: Serving | None = None
        self.sockets: dict[str, socket.socket] = {}
        self.hold = Hold()
        # What counts its answers, where it had to be opened before the worker became another user.
        self.counter: Counter | None = None
        self.going, self.ready_by, self.was_told_to_quit = threading.Event(), 0.0, False

    def converse(self) -> None:
        """Hears the master to the end. What goes wrong ends the process at once."""
        try:
            while (lines := self.pipes.read(1.0)) is not None:
                for words in lines:
                    self.obey(*words)
                self.end_if_broken()
            self.outlive_master()
        except (Unfit, TypeError, IndexError) as fault:
            warn(f"ends: {fault}")
            leave(1)
        except Exception:
            # (a worker that no longer hears its master would serve on without one)
            traceback.print_exc()
            leave(1)
        self.finish()

    def outlive_master(self) -> None:
        """Serves on after the death of the master, as long as the service wants it. A worker that finishes, or has not
        loaded, does not."""
        survival = Survival(self.given.finish)
        if not self.server or self.server.is_told_to_finish or not survival.begins():
            return
        while not survival.look():
            time.sleep(SURVIVAL_LOOK)
            self.end_if_broken()

    def end_if_broken(self) -> None:
        """Ends where the worker no longer serves, or what represents it to its master has ended."""
        self.end_if_stuck()
        self.end_overdue()
        if lifeline and lifeline.is_broken():
            leave(1)

    def obey(self, word: str, *rest: str) -> None:
        if word == "worker" and len(rest) == 3:
            self.start = rest[2]
            self.title = f"worker {rest[0]}.{rest[1]}"
        elif word == "listener" and not self.going.is_set():
            self.sockets[rest[0]] = self.hold.take(rest[0])
        elif word == "go" and self.sockets:
            if is_known_late():
                raise Unfit(f"another worker of this version had not loaded after {self.given.ready_within:g} seconds")
            self.ready_by = time.monotonic() + self.given.ready_within
            self.going.set()
        elif word == "ping":
            self.pipes.say("pong")
        elif word == "tick" and self.start:
            self.pipes.say(f"beat {rest[0]} {self.start}")
        elif word == "close":
            self.close(rest[0])
        elif word == "quit":
            self.was_told_to_quit = True
            self.finish()
        elif word == "usr1":
            reopen_logs()
            if self.server:
                self.server.reopen()
        else:
            raise Unfit(f"a line that no master says: {word[:100]}")

    def close(self, address: str) -> None:
        self.hold.give_up(address)
        if self.server:
            self.server.close(address)

    def finish(self) -> None:
        """Lets the server finish. Without one there is nothing to finish."""
        if self.server:
            self.server.finish()
        else:
            self.leave()

    def end_if_stuck(self) -> None:
        if self.ready_by and not self.server and time.monotonic() > self.ready_by:
            note_late()
            warn(f"{self.given.application} has not loaded after {self.given.ready_within:g} seconds")
        elif self.server and not self.server.is_told_to_finish and self.server.is_stuck(self.given.timeout):
            warn(f"all threads have been at one request for more than {self.given.timeout:g} seconds")
        else:
            return
        faulthandler.dump_traceback(all_threads=True)
        self.settle()
        leave(1)

    def end_overdue(self) -> None:
        """Ends without requests that take too long, after the others."""
        limit = getattr(self.given, "request_timeout", None)
        found = self.server.give_up(limit) if limit and self.server else []
        for why in found:
            warn(why)
        if found:
            faulthandler.dump_traceback(all_threads=True)

    def serve(self, application: Callable[..., Any]) -> None:
        """Serves up to the end."""
        from .wsgi_server import Requests, Server

        if self.pipes.has_master():
            given, name = self.given, convention.WORKER_NAME or ""
            log = AccessLog(given.access_log, given.access_form) if given.access_log else None
            requests = Requests(self.counter or Counter(given.threads, convention.FOLDER, name), log, name)
            told = corrected(application, given.trusted_proxy)
            server = self.server = Server(told, self.sockets, given.threads, given.keep, requests)
            self.pipes.say("ready")
            note_ready()
            server.run(self.given.idle, self.given.finish)
        self.leave()

    def settle(self) -> None:
        """Writes down what was answered."""
        if self.server:
            self.server.settle()

    def leave(self) -> None:
        self.settle()
        if self.was_told_to_quit:
            self.pipes.say("gone")
        leave(0)


def leave(status: int) -> None:
    """Ends the process, whatever its threads do."""
    sys.stderr.flush()
    if lifeline:
        lifeline.tell(f"ended {status}")
    os._exit(status)


def reopen_logs() -> None:
    """Closes log files. A handler opens its file again with the next line."""
    for logger in [logging.getLogger(), *map(logging.getLogger, list(logging.root.manager.loggerDict))]:
        for handler in logger.handlers:
            if isinstance(handler, logging.FileHandler):
                handler.close()


def loaded(text: str) -> Callable[..., Any]:
    """The application MODULE:APP; APP may be a path of attributes, and is `application` if it is missing."""
    module, _, name = text.partition(":")
    found: Any = importlib.import_module(module)
    for part in (name or "application").split("."):
        found = getattr(found, part)
    application: Callable[..., Any] = found
    return application


def arguments() -> argparse.Namespace:
    parser = argparse.ArgumentParser(
        prog="prefork-wsgi", description="A worker of a Prefork master that serves a WSGI application."
    )
    parser.add_argument("--version", action="version", version=f"prefork-wsgi {VERSION}")
    parser.add_argument("--threads", type=int, default=4, help="how many requests it answers at a time (4)")
    for option, kind, seconds, text in (
        ("--timeout", float, 30.0, "end if all threads have been at one request for this long (30)"),
        ("--keep", int, 75, "how long a connection may be idle (75)"),
        ("--idle", float, 2.0, "the same while it finishes (2)"),
        ("--finish", float, 30.0, "how long it may finish (30)"),
        ("--ready-within", float, 30.0, "how long it may load (30)"),
    ):
        parser.add_argument(option, type=kind, default=seconds, metavar="SECONDS", help=text)
    text = "end once the others are answered if a request has taken this long (none)"
    parser.add_argument("--request-timeout", type=seconds_of, metavar="SECONDS", help=text)
    parser.add_argument("--chdir", default=".", metavar="FOLDER", help="where the module is (the current folder)")
    parser.add_argument("--preloader", action="store_true", help="load the application, and fork workers that have it")
    parser.add_argument("--warm", action="append", default=[], metavar="PATH", help="ask it for PATH before the first fork")
    text = "before it serves, ask it for PATH in its own process, and end if the status is 500 or more three times"
    parser.add_argument("--probe", metavar="PATH", type=path_of, help=text)
    text = "believe what this proxy says of its clients: an address, a network, or unix (none)"
    parser.add_argument("--trusted-proxy", action="append", default=[], type=trusted_of, metavar="ADDRESS", help=text)
    text = "write a line for each answer to this file, which USR1 opens anew (none)"
    parser.add_argument("--access-log", metavar="FILE", type=path_from_here, help=text)
    forms, text = access_log.FORMS, "the form of these lines: combined, as of other web servers, or json (combined)"
    parser.add_argument("--access-form", choices=forms, default=access_log.COMBINED, metavar="FORM", help=text)
    for option, text in (
        ("--after-load", "is called in the preloader, before the first fork"),
        ("--after-fork", "is called in each worker, with its name, such as 1.2.0"),
    ):
        parser.add_argument(option, action="append", default=[], metavar="MODULE:NAME", help=text)
    parser.add_argument("--user", metavar="NAME", help="who runs the application, once it has its sockets (the same)")
    parser.add_argument("--group", metavar="NAME", help="its group (that of --user)")
    parser.add_argument("--check", action="store_true", help="only look at the command line, and for waitress")
    parser.add_argument("application", metavar="MODULE:APP")
    given = parser.parse_args()
    if importlib.util.find_spec("waitress") is None:
        parser.error(f"{sys.executable} has no waitress; install python3-waitress, or name another --python")
    if given.threads < 1:
        parser.error("--threads takes a number from 1 on")
    # (a worker that starts later serves without its log)
    if given.check and given.access_log and (fault := access_log.fault_of(given.access_log)):
        parser.error(f"argument --access-log: {fault}")
    return given


def seconds_of(text: str) -> float:
    """A time that is more than nothing."""
    found = float(text)
    if not 0 < found <= MOST_REQUEST_SECONDS:
        raise argparse.ArgumentTypeError(f"it takes more than 0 seconds, and at most {MOST_REQUEST_SECONDS}, not: {text}")
    return found


def path_of(text: str) -> str:
    """The path of a page."""
    if not text.startswith("/"):
        raise argparse.ArgumentTypeError(f"it takes a path that begins with /, not: {text}")
    return text


def path_from_here(text: str) -> str:
    """The path of a file, as it leads from here: the worker changes its folder."""
    return os.path.abspath(text)


def trusted_of(text: str) -> Any:
    """A proxy that is trusted."""
    try:
        return proxy_of(text)
    except ValueError as fault:
        raise argparse.ArgumentTypeError(f"it takes an address, a network or unix: {fault}") from fault


def become(user: str | None, group: str | None) -> None:
    """Becomes another user, before the application is loaded."""
    found = pwd.getpwnam(user) if user else None
    if found and found.pw_uid == os.geteuid() and not group:
        return
    number = grp.getgrnam(group).gr_gid if group else found.pw_gid if found else os.getgid()
    open_files()
    if found:
        os.initgroups(found.pw_name, number)
    else:
        os.setgroups([number])
    os.setgid(number)
    if found:
        os.setuid(found.pw_uid)


def prepare(folder: str) -> None:
    os.chdir(folder)
    sys.path.insert(0, os.getcwd())
    logging.basicConfig(level=logging.WARNING, format="%(asctime)s %(process)d %(name)s %(levelname)s %(message)s")
    logging.getLogger("waitress.queue").setLevel(logging.ERROR)


def ask(given: argparse.Namespace, application: Callable[..., Any]) -> None:
    """Asks an application for the pages of --warm, in this process."""
    for path in given.warm:
        warm(application, path, bool(given.trusted_proxy))


def share_memory(threads: int) -> None:
    """Loads what each worker would load and have for itself, the server, and what it looks up addresses with; and serves."""
    importlib.import_module("encodings.idna")
    practising = importlib.import_module(".practising", __package__)
    try:
        practising.practise(threads)
    except OSError:
        # The system gives it no socket: each worker has some memory more.
        pass


def forked(given: argparse.Namespace) -> Callable[..., Any]:
    """Is the preloader: loads the application, and forks workers. Returns the application in each of them."""
    global lifeline
    preloader = Preloader()
    set_title("prefork-preload")
    faulthandler.dump_traceback_later(given.ready_within, exit=True)
    clear_environment()
    try:
        share_memory(given.threads)
        prepare(given.chdir)
        application = loaded(given.application)
        ask(given, application)
        for name in given.after_load:
            loaded(name)()
    except BaseException as fault:
        traceback.print_exc()
        preloader.fail(f"{given.application}: {type(fault).__name__}: {fault}")
        leave(1)
    faulthandler.cancel_dump_traceback_later()
    lifeline = preloader.run(warn)
    convention.WORKER_NAME = lifeline.name
    set_title(f"worker {lifeline.name}")
    lifeline.fasten()
    for name in given.after_fork:
        loaded(name)(lifeline.name)
    os.environ["PREFORK_KEEPER"] = lifeline.keeper
    return application


def main() -> int:
    given = arguments()
    if given.check:
        return 0
    try:
        application = forked(given) if given.preloader else None
    except BaseException as fault:
        # Of a worker that was forked: a function that is called after the fork has failed.
        traceback.print_exc()
        warn(f"after the fork: {type(fault).__name__}: {fault}")
        leave(1)
    pipes = Pipes()
    worker = Worker(given, pipes)
    threading.Thread(target=worker.converse, daemon=True).start()
    worker.going.wait()
    # Of the process: in the thread that hears the master it would be that thread's.
    set_title(worker.title)
    clear_environment()
    try:
        if not application:
            if given.user or given.group:
                worker.counter = Counter(given.threads, convention.FOLDER, convention.WORKER_NAME or "")
                become(given.user, given.group)
            prepare(given.chdir)
            application = loaded(given.application)
            ask(given, application)
            for name in given.after_fork:
                loaded(name)(convention.WORKER_NAME)
        if given.probe:
            probe(application, given.probe, bool(given.trusted_proxy))
        worker.serve(application)
    except BaseException as fault:
        # Threads of an application that fails, or that exits, must not keep it.
        traceback.print_exc()
        warn(f"{given.application}: {type(fault).__name__}: {fault}")
        leave(1)
    return 0

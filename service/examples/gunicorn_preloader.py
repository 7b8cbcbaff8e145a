#!/usr/bin/env python3
"""gunicorn_preloader.py [OPTIONS OF GUNICORN] MODULE:APP

A preloader for gunicorn: it loads the application once, and forks workers of gunicorn's own classes (-k), without
gunicorn's master: prefork-serve --preload site.toml -- python3 gunicorn_preloader.py -k gthread --threads 8 hello:app.

Options and gunicorn.conf.py are gunicorn's, but for those of its master: bind, workers, daemon, pidfile, reload. Of its hooks,
post_fork, post_worker_init, worker_int, worker_abort and worker_exit are called. A worker that has not turned its loop for
`timeout` seconds ends, and another one starts. See docs/workers/preloaders.md.
"""
import argparse
import os
import pathlib
import shutil
import signal
import sys
import threading
import time
import traceback
import types
from typing import Any

sys.dont_write_bytecode = True
# The package is beside the programs of the service; in the repository it is beside this folder.
program = shutil.which("prefork-wsgi") or __file__
sys.path.insert(1, str(pathlib.Path(program).resolve().parents[1]))

from gunicorn import sock as sockets
from gunicorn.app.wsgiapp import WSGIApplication

from prefork_service import convention, wsgi
from prefork_service.addresses import text_of
from prefork_service.convention import Pipes, clear_environment, warn
from prefork_service.preloader import Preloader
from prefork_service.titles import set_title


class Serving(wsgi.Serving):
    """A worker of gunicorn that serves, as the thread sees it that hears the master."""

    def __init__(self, worker: Any):
        self.worker, self.is_told_to_finish = worker, False

    def close(self, address: str) -> None:
        """It accepts no more at an address, if its class can do that."""
        for one in self.worker.sockets:
            if hasattr(self.worker, "poller") and address == text_of(one.getsockname()):
                self.worker.poller.unregister(one)

    def finish(self) -> None:
        self.is_told_to_finish = True
        os.kill(os.getpid(), signal.SIGTERM)

    def give_up(self, seconds: float) -> list[str]:
        return []

    def is_stuck(self, timeout: float) -> bool:
        return timeout > 0 and time.monotonic() - self.worker.turned > timeout

    def reopen(self) -> None:
        self.worker.log.reopen_files()

    def settle(self) -> None:
        """gunicorn writes its own logs, and counts nothing here."""


def forked_class(kind: Any) -> Any:
    """A class of gunicorn's, whose worker has no master of gunicorn's: it says that it turns to this process alone, and its
    parent may be another one."""

    class Forked(kind):  # type: ignore[misc]
        ppid = property(lambda self: os.getppid(), lambda self, number: None)
        turned = time.monotonic()
        # What hears the master, once it is there.
        ours: Any = None

        def notify(self) -> None:
            self.turned = time.monotonic()

        def run(self) -> None:
            if self.ours.pipes.has_master():
                self.notify()
                self.ours.server = Serving(self)
                self.ours.pipes.say("ready")
                super().run()

    return Forked


class Worker(wsgi.Worker):
    """The master's lines, and a worker of gunicorn's that serves."""

    def serve_by(self, application: WSGIApplication, log: Any) -> None:
        cfg, listeners = application.cfg, []
        for one in self.sockets.values():
            kind, name = sockets._sock_type(one.getsockname()), one.getsockname()
            listeners.append(kind(name, application.cfg, log, fd=one.detach()))
        made = forked_class(cfg.worker_class)(0, os.getppid(), listeners, application, cfg.timeout, cfg, log)
        made.ours, made.pid, master = self, os.getpid(), types.SimpleNamespace(cfg=cfg, log=log)
        cfg.post_fork(master, made)
        try:
            made.init_process()
        except SystemExit:
            # It was told to end at once.
            pass
        cfg.worker_exit(master, made)
        self.leave()


def loaded() -> WSGIApplication:
    """The application, with gunicorn's options and configuration."""
    application = WSGIApplication("%(prog)s [OPTIONS] MODULE:APP")
    application.chdir()
    application.wsgi()
    return application


def main() -> None:
    preloader = Preloader()
    set_title("prefork-preload")
    clear_environment()
    try:
        application = loaded()
        log = application.cfg.logger_class(application.cfg)
    except BaseException as fault:
        traceback.print_exc()
        preloader.fail(f"{sys.argv[-1]}: {type(fault).__name__}: {fault}")
        wsgi.leave(1)
    # Returns in each worker.
    lifeline = wsgi.lifeline = preloader.run(warn)
    set_title(f"worker {lifeline.name}")
    lifeline.fasten()
    os.environ["PREFORK_KEEPER"] = lifeline.keeper
    convention.WORKER_NAME = lifeline.name
    cfg = application.cfg
    given = argparse.Namespace(application=sys.argv[-1], ready_within=60.0, timeout=cfg.timeout, finish=cfg.graceful_timeout)
    worker = Worker(given, Pipes())
    threading.Thread(target=worker.converse, daemon=True).start()
    worker.going.wait()
    clear_environment()
    try:
        worker.serve_by(application, log)
    except BaseException as fault:
        traceback.print_exc()
        warn(f"{sys.argv[-1]}: {type(fault).__name__}: {fault}")
        wsgi.leave(1)


if __name__ == "__main__":
    main()

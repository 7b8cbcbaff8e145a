"""An application that a preloader has loaded once, and whose workers it forks: words, and the end of each process.

Each scenario is done with the preloader of prefork-wsgi, and with those in examples for gunicorn and for puma, where the
machine has them.
"""
import functools
import os
import pathlib
import shutil
import signal
import subprocess
import sys
import time
from collections.abc import Callable, Collection
from typing import Any

from gate.addresses import is_answered
from gate.waiting import SECONDS, comes, until
from web.site import BIN, CLIENTS, SERVICE, Scenario, Site, name_of, text_of
from web.starts import answer_to, asks, status

WSGI = '''import os, time
with open(r"@LOADS@", "a") as file:
    file.write(f"{os.getpid()}\\n")
while os.path.exists(r"@HOLD@"):
    time.sleep(0.02)
@MORE@
def app(environ, start):
    text = b"version @VERSION@ process %d\\n" % os.getpid()
    start("200 OK", [("Content-Type", "text/plain"), ("Content-Length", str(len(text)))])
    return [text]
'''
RACK = '''File.write("@LOADS@", "#{$$}\\n", mode: "a")
sleep 0.02 while File.exist?("@HOLD@")
@MORE@
run lambda { |env| [200, {"Content-Type" => "text/plain"}, ["version @VERSION@ process #{$$}\\n"]] }
'''
BUSY, BURNS = 8, "end = time.process_time() + 1\nwhile time.process_time() < end:\n    pass\n"


def python_with(module: str) -> str | None:
    """A Python that has a module; Debian has that of its packages in /usr/bin."""
    for python in (sys.executable, "/usr/bin/python3"):
        if shutil.which(python) and subprocess.run([python, "-c", f"import {module}"], capture_output=True).returncode == 0:
            return python
    return None


def has_puma() -> bool:
    ruby = shutil.which("ruby")
    return ruby is not None and subprocess.run([ruby, "-e", "require 'puma'; require 'puma/server'; require 'rack'"], capture_output=True).returncode == 0


class Application:
    """An application in one of the languages: its file, how it is served, and what breaks it."""

    def __init__(self, site: Site, file: str, text: str, fault: tuple[str, str]):
        self.site, self.text, (self.breaks, self.reason) = site, text, fault
        self.file, self.loads = site.home / file, site.room / "loads"

    def install(self, version: int, more: str = "") -> None:
        new, text = self.file.with_name("new"), self.text
        for name, value in (("LOADS", self.loads), ("HOLD", self.site.hold), ("VERSION", version), ("MORE", more)):
            text = text.replace(f"@{name}@", str(value))
        new.write_text(text)
        new.replace(self.file)

    def count(self) -> int:
        """How often it was loaded."""
        return len(text_of(self.loads).splitlines())


def in_python(site: Site) -> Application | None:
    python = python_with("waitress")
    if python:
        site.options = ["--preload", "--python", python, "--chdir", str(site.home), "--wsgi", "app:app"]
    return Application(site, "app.py", WSGI, ("1 / 0", "ZeroDivisionError: division by zero")) if python else None


def in_gunicorn(site: Site) -> Application | None:
    site.options, python = ["--preload"], python_with("gunicorn")
    site.environment["PATH"] = f"{BIN}:{site.environment['PATH']}"
    words = ["-k", "gthread", "--threads", "4", "--log-level", "error", "--chdir", str(site.home), "app:app"]
    site.program = [python or "", str(SERVICE / "examples" / "gunicorn_preloader.py"), *words]
    return Application(site, "app.py", WSGI, ("1 / 0", "ZeroDivisionError: division by zero")) if python else None


def in_ruby(site: Site) -> Application | None:
    # (puma closes connections that it has accepted and not heard from)
    site.options = ["--preload", "--defer-accept"]
    site.program = ["ruby", str(SERVICE / "examples" / "rack_preloader.rb"), str(site.home / "config.ru")]
    return Application(site, "config.ru", RACK, ("raise 'broken'", "RuntimeError: broken")) if has_puma() else None


Language = Callable[[Site], Application | None]
NEEDED = {"in_python": "waitress", "in_gunicorn": "gunicorn", "in_ruby": "puma"}


def begun(site: Site, language: Language, more: str = "", **settings: Any) -> Application | None:
    """A service under load; nothing where the machine has not what it needs."""
    application = language(site)
    if application is None:
        print(f"{site.name}: {NEEDED[language.__name__]} is not installed; left out")
        return None
    # A kept connection that ends before its answer is asked again, as HTTP allows.
    site.is_forked, site.load_options = True, ["--again"]
    application.install(1, more)
    site.begin(**settings)
    return application


def preloader(site: Site) -> int:
    """The process of the preloader that has loaded, and whose generation runs."""
    def found() -> list[int]:
        return [it["process"] for it in status(site)["preloaders"] if it["is_loaded"] and not it["is_leaving"]]

    return int(until("a preloader", found)[0])


def zombies(site: Site) -> list[int]:
    """The children of prefork-serve that have ended and that it has not buried."""
    found = []
    for file in pathlib.Path("/proc").glob("[0-9]*/stat"):
        try:
            state, parent = file.read_text().rpartition(")")[2].split()[:2]
        except OSError:
            continue
        if state == "Z" and int(parent) == site.serve.pid:
            found.append(int(file.parent.name))
    return found


def rolls_back(site: Site, word: str, reason: str) -> None:
    """A word that is rolled back, and for which this reason is told."""
    block, said = site.sent(word).communicate(timeout=SECONDS)
    site.check(f"{word} is not rolled back: {block}{said}", "\nrolled-back " in block)
    site.check(f"{word}: {reason!r} is not told: {block}{said}", reason in said)


def words(site: Site, language: Language) -> None:
    """Each word, and each end of a process that serves nobody: nothing is lost."""
    application = begun(site, language)
    if not application:
        return
    site.wants("HUP", 0, "done", 2)
    askers = [asks(site, "HUP") for _ in range(3)]
    site.check("three HUPs are not done", all("\ndone " in answer_to(asker) for asker in askers))
    old = application.count()
    application.install(2, application.breaks)
    rolls_back(site, "HUP", application.reason)
    rolls_back(site, "USR2", application.reason)
    site.check(f"loaded {application.count() - old} times by a HUP and a USR2", application.count() - old == 2)
    application.install(2)
    site.wants("HUP", 0, "done", 2)
    site.answered_by(2)
    application.install(3)
    site.wants("USR2", 0, "done", 2)
    site.answered_by(3)
    loaded = application.count()
    site.wants("TTIN", 0, "done", 3)
    site.wants("TTOU", 0, "done", 2)
    site.check("it is loaded for a worker more", application.count() == loaded)
    ends_without_a_loss(site, application)
    site.wants("HUP", 0, "done", 2)
    site.end("1234")
    site.certify()


def ends_without_a_loss(site: Site, application: Application) -> None:
    """The preloader, loaded and while it loads, the master and the keeper are killed."""
    old = site.workers()
    site.kill(preloader(site))
    application.install(4)
    site.wants("HUP", 0, "done", 2)
    until("other workers", lambda: site.has_others(old))
    site.hold.touch()
    word = asks(site, "HUP")
    loads = until("one that loads", lambda: [it["process"] for it in status(site)["preloaders"] if not it["is_loaded"]])
    site.kill(loads[0])
    answer = answer_to(word)
    site.hold.unlink()
    site.check(f"it is not rolled back: {answer}", "\nrolled-back " in answer)
    site.check(f"the reason is not told: {answer}", "has ended with status -9 before it had loaded" in answer)
    old, loaded = site.workers(), application.count()
    site.kill(site.new_master() or site.master())
    until("two other workers", lambda: site.has_others(old))
    keeper = site.keeper()
    site.kill(keeper)
    until("another keeper", lambda: site.keeper() not in (None, keeper))
    site.check("they are not of the preloader that runs", application.count() == loaded)


def killed(site: Site, what: str, numbers: Collection[int], others: Callable[[], Any]) -> None:
    """Kills the first of these processes under a load of its own, with which the others end: requests in one worker fail
    at most, and none that began once they have ended. (Until then a worker accepts: its system kills it as soon as its
    shim's descriptors are closed, which may take a while on a busy machine.)"""
    site.begin_load()
    site.kill(next(iter(numbers)))
    until(f"the end of a {what}", lambda: not {*numbers} & {*site.mark.processes()})
    moment = time.monotonic()
    until(f"what follows a killed {what}", others)
    found = site.end_load()
    late = [it for it in found["failures"] if it["began"] > moment]
    site.tally.check_lost([f"{site.name}: {what}: requests that began after its end failed: {late}"] if late else [])
    site.check_load(found, "1", may_fail=CLIENTS)


def shim_and_worker(site: Site) -> list[int]:
    """The shim of a worker, and the worker."""
    worker = min(site.workers())
    name = name_of(worker).removeprefix("worker ")
    return [until("its shim", lambda: [*site.named(f"shim {name}")])[0], worker]


def kills(site: Site, language: Language) -> None:
    """A worker, its shim, a worker after a reload that was rolled back, and one without its preloader are killed: only
    requests in that worker fail, and another one of the version that runs is there."""
    application = begun(site, language)
    if not application:
        return
    site.check_load(site.end_load(), "1")
    victim = min(site.workers())
    killed(site, "worker", [victim], lambda: site.has_others({victim}))
    old = site.workers()
    killed(site, "shim", shim_and_worker(site), lambda: len(site.workers()) == 2 and site.workers() != old)
    site.check_workers("a killed shim", 2)
    application.install(2, application.breaks)
    rolls_back(site, "HUP", application.reason)
    site.check("the status does not say how to be rid of that", "send HUP" in (status(site)["of_files"] or ""))
    loaded, second = application.count(), min(site.workers())
    killed(site, "worker of the version before", [second], lambda: site.has_others({second}))
    site.check("it is loaded again", application.count() == loaded)
    application.install(1)
    site.wants("HUP", 0, "done", 2)
    site.check("the status still says it", status(site)["of_files"] is None)
    third, dead = min(site.workers()), preloader(site)
    os.kill(dead, signal.SIGKILL)
    until("its end", lambda: dead not in site.mark.processes())
    killed(site, "worker without a preloader", [third], lambda: site.has_others({third}))
    site.check("it is not loaded again", application.count() == loaded + 2)
    # The workers of a killed preloader are given to prefork-serve, which is what process 1 of a container is given.
    site.check(f"zombies: {zombies(site)}", comes(lambda: not zombies(site)))
    site.begin_load()
    site.wants("HUP", 0, "done", 2)
    site.end("1")
    site.certify()


def serve_killed(site: Site, language: Language) -> None:
    """prefork-serve is killed: no process of it is left, and the next start serves."""
    application = begun(site, language)
    if not application:
        return
    site.end_load()
    site.serve.kill()
    site.serve.wait()
    left = site.mark.left()
    site.check(f"processes are left: {left}", not left)
    site.begin()
    site.wants("HUP", 0, "done", 2)
    site.end("1")
    site.certify()


def an_application_is_preloaded(site: Site) -> None:
    words(site, in_python)


def an_application_is_preloaded_in_ruby(site: Site) -> None:
    words(site, in_ruby)


def processes_of_a_preloaded_application_are_killed(site: Site) -> None:
    kills(site, in_python)


def processes_of_a_preloaded_application_in_ruby_are_killed(site: Site) -> None:
    kills(site, in_ruby)


def an_application_is_preloaded_for_gunicorn(site: Site) -> None:
    words(site, in_gunicorn)


def processes_of_a_preloaded_gunicorn_are_killed(site: Site) -> None:
    kills(site, in_gunicorn)


def a_serve_that_preloads_is_killed(site: Site) -> None:
    serve_killed(site, in_python)


def a_serve_that_preloads_in_ruby_is_killed(site: Site) -> None:
    serve_killed(site, in_ruby)


def many_workers_are_forked(site: Site) -> None:
    """128 workers at two addresses: a reload and an upgrade, each with one load."""
    application = begun(site, in_python, listeners=[site.first, site.second], workers=128)
    if not application:
        return
    for count, word in enumerate(("HUP", "USR2"), 2):
        old = site.workers()
        site.wants(word, 0, "done", 128)
        until("other workers", functools.partial(site.has_others, old, 128))
        site.check("an address is not answered", is_answered(site.first, SECONDS) and is_answered(site.second, SECONDS))
        site.check(f"loaded {application.count()} times", application.count() == count)
    site.end("1")
    site.certify()


def a_slow_load_on_a_busy_machine(site: Site) -> None:
    """32 workers of an application that takes a second of a processor to load, while eight processes keep the machine
    busy: start, reload and upgrade are done, each with one load."""
    with Burners(site, BUSY):
        application = begun(site, in_python, BURNS, workers=32)
        if not application:
            return
        for count, word in enumerate(("HUP", "USR2"), 2):
            site.wants(word, 0, "done", 32)
            site.check(f"loaded {application.count()} times", application.count() == count)
        site.end("1")
    site.certify()


class Burners:
    """Processes that keep processors busy."""

    def __init__(self, site: Site, count: int):
        self.site, self.count = site, count
        self.processes: Collection[subprocess.Popen[bytes]] = ()

    def __enter__(self) -> None:
        command = [sys.executable, "-c", "while True: pass"]
        self.processes = [subprocess.Popen(command, stdin=subprocess.DEVNULL) for _ in range(self.count)]

    def __exit__(self, *_: object) -> None:
        for one in self.processes:
            one.kill()
            one.wait()


SCENARIOS: tuple[Scenario, ...] = (
    a_slow_load_on_a_busy_machine, many_workers_are_forked, an_application_is_preloaded,
    processes_of_a_preloaded_application_are_killed, a_serve_that_preloads_is_killed, an_application_is_preloaded_in_ruby,
    processes_of_a_preloaded_application_in_ruby_are_killed, a_serve_that_preloads_in_ruby_is_killed,
    an_application_is_preloaded_for_gunicorn, processes_of_a_preloaded_gunicorn_are_killed,
)

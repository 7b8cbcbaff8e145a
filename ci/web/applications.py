"""Applications as they may be: one that prints, one that deadlocks, one that leaves daemons."""
import shutil
import socket
import sys

from gate.addresses import place_of
from gate.waiting import comes, until
from web.site import CLIENTS, SERVICE, Scenario, Site

PAGE = (SERVICE / "tests" / "programs" / "page.py").read_text()
# Says to the standard output what a worker would answer its master, and starts a process that outlives its parent.
PRINTS = """
import subprocess, sys
print("ready\\npong\\ngone\\n" * 1000, flush=True)
subprocess.run(["sh", "-c", "setsid sleep 1000 & setsid sleep 1000 &"])
"""


def begin(site: Site, more: str, *options: str) -> None:
    """Starts a program with its adapter."""
    install(site, more)
    site.program, site.options = [sys.executable, str(site.home / "page.py")], ["--ready", "notify", *options]
    site.begin()


def install(site: Site, more: str, version: int = 1) -> None:
    new = site.home / "new.py"
    text = PAGE.replace("import asyncio\n", f"import asyncio\n{more}", 1)
    new.write_text(text.replace("'VERSION', '1'", f"'VERSION', '{version}'"))
    new.replace(site.home / "page.py")


def daemons(site: Site) -> int:
    """How many processes the workers have left."""
    return sum(words == ["sleep", "1000"] for words in site.mark.processes().values())


def an_application_prints_and_leaves_daemons(site: Site) -> None:
    """What it prints is no answer to the master, and what it leaves ends with its worker."""
    begin(site, PRINTS)
    until("four daemons", lambda: daemons(site) == 4)
    install(site, PRINTS, 2)
    site.wants("HUP", 0, "done", 2)
    site.answered_by(2)
    until("the daemons of the new workers alone", lambda: daemons(site) == 4)
    site.wants("TTOU", 0, "done", 1)
    until("the daemons of one worker", lambda: daemons(site) == 2)
    site.end("12")
    site.certify()


def an_application_deadlocks(site: Site) -> None:
    """A worker that serves nobody any more is ended by its adapter, and another one started."""
    begin(site, "", "--probe", "/", "--probe-within", "1", "--probe-limit", "8")
    old = site.workers()
    with socket.create_connection(place_of(site.first)) as client:
        client.sendall(b"GET /stuck HTTP/1.1\r\nHost: x\r\n\r\n")
        until("another worker", lambda: len(site.workers()) == 2 and len(site.workers() & old) == 1)
    site.wants("HUP", 0, "done", 2)
    reason = " has not answered / for 8 seconds"
    until("the journal has the reason", lambda: reason in (site.run / "journal").read_text())
    site.end("1", may_fail=CLIENTS)
    site.certify()


def release(site: Site, version: int, more: str = "") -> None:
    """Lays out a release in a folder of its own, and lets the symbolic link lead there."""
    folder = site.room / "releases" / str(version)
    folder.mkdir(parents=True)
    install(site, more, version)
    (site.home / "page.py").rename(folder / "page.py")
    new = site.room / "new"
    new.symlink_to(folder)
    new.replace(site.room / "current")


def releases_come_by_a_symbolic_link(site: Site) -> None:
    """Each start follows it, and the old release may go. A broken release, or none, is rolled back."""
    release(site, 1)
    site.program, site.options = [sys.executable, "page.py"], ["--ready", "notify", "--chdir", "current"]
    site.begin()
    for version, word in ((2, "HUP"), (3, "USR2")):
        release(site, version)
        site.wants(word, 0, "done", 2)
        site.answered_by(version)
        shutil.rmtree(site.room / "releases" / str(version - 1))
    release(site, 4, "1 / 0")
    site.wants("HUP", 3, "rolled-back", 2)
    (site.room / "current").unlink()
    site.wants("HUP", 3, "rolled-back", 2)
    reason = f"{site.room / 'current'}: No such file or directory"
    site.check(f"the journal has no {reason}", comes(lambda: reason in (site.run / "journal").read_text()))
    (site.room / "current").symlink_to(site.room / "releases" / "3")
    old = site.workers()
    site.kill(min(old))
    until("another worker", lambda: len(site.workers()) == 2 and len(site.workers() & old) == 1)
    site.end("123", may_fail=CLIENTS)
    site.certify()


SCENARIOS: tuple[Scenario, ...] = (
    an_application_prints_and_leaves_daemons, an_application_deadlocks, releases_come_by_a_symbolic_link,
)

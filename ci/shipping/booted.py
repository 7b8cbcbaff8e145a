"""The package under a real systemd: what units do is done, and no request is lost."""
import json
import os
import pathlib
import signal
import subprocess
import time
from collections.abc import Callable
from typing import Any

from gate import waiting
from shipping.machine import Machine
from shipping.room import SERVICE, Room, ran

UNIT, ADDRESS, FOLDER = "prefork@site", "127.0.0.1:8080", "/run/prefork/site"
CONFIG, PAGE, HELD = "/etc/prefork/site.toml", "/srv/site/page.py", f"{FOLDER}/held"
# All of the service: the unit has no other file.
PLAIN = f"""listeners = ["{ADDRESS}"]
workers = 2

[service]
program = ["/usr/bin/python3", "{PAGE}"]
ready = "notify"
environment = {{ VERSION = "1", HELD = "{HELD}" }}
"""
BROKEN = "raise SystemExit(3)\n"
# A service that hangs is found sooner than the unit has it, and no start or stop is too slow on a busy machine.
DROP_IN = "[Service]\nWatchdogSec=15\nTimeoutStartSec=600\nTimeoutStopSec=600\n"
# How long is waited for anything: a busy machine takes many times as long as an idle one.
MOST_SECONDS, PATIENCE = 600.0, "400"
LINKS = "/etc/systemd/system"
# What the journal says of a start that fails.
REASON = ("no worker has started: ", "has ended by itself with status 3", "result 'exit-code'")


def waits_for(what: str, holds: Callable[[], Any]) -> Any:
    return waiting.until(what, holds, MOST_SECONDS)


class Site:
    """A service of a machine."""

    def __init__(self, machine: Machine):
        self.machine, self.room = machine, machine.room
        self.text = (SERVICE / "tests" / "programs" / "page.py").read_text()

    def check(self, what: str, holds: Any) -> None:
        if not holds:
            journal = self.machine.run("journalctl", "--no-pager", "-n", "25", "-u", UNIT).stdout
            what = f"{what}; {self.machine.run('systemctl', 'status', UNIT).stdout[:900]}{journal}"
        self.room.check(what, holds)

    def systemctl(self, *words: str, wanted: int = 0) -> str:
        found = self.machine.run("systemctl", *words)
        self.check(f"systemctl {' '.join(words)} has the status {found.returncode}: {found.stdout}", found.returncode == wanted)
        return found.stdout

    def journal(self) -> str:
        return self.machine.run("journalctl", "--no-pager", "-u", UNIT).stdout

    def shown(self, name: str) -> str:
        """A property of the unit."""
        return self.machine.run("systemctl", "show", "--property", name, "--value", UNIT).stdout.strip()

    def main(self) -> int:
        return int(self.shown("MainPID") or 0)

    def answers(self) -> bool:
        return self.machine.run("prefork-load", "--clients", "1", "--seconds", "0.1", ADDRESS).returncode == 0

    def is_answered_by(self, version: str) -> bool:
        found = self.machine.run("prefork-load", "--json", "--clients", "1", "--seconds", "0.1", ADDRESS)
        return found.returncode == 0 and version in json.loads(found.stdout)["versions"]

    def signal(self, name: str) -> None:
        self.machine.run("kill", f"-{name}", str(self.main()))

    def restarts(self, what: str, act: Callable[[], Any]) -> None:
        """Something after which systemd starts the service again by itself."""
        before, old = int(self.shown("NRestarts")), self.main()
        act()
        waits_for(what, lambda: int(self.shown("NRestarts")) > before and self.shown("SubState") == "running")
        self.check(f"{what}: the same process serves", self.main() != old)

    def loses_nothing(self, what: str, act: Callable[[], Any]) -> list[str]:
        """Does something while clients ask all the time: the versions that have answered."""
        words = ["prefork-load", "--again", "--json", "--clients", "4", "--rate", "40", "--patience", PATIENCE, ADDRESS]
        load = subprocess.Popen(self.machine.command(*words), stdin=subprocess.DEVNULL, stdout=subprocess.PIPE, text=True)
        try:
            act()
            end(load)
            said = json.loads(load.communicate(timeout=MOST_SECONDS)[0])
        finally:
            end(load)
            load.wait()
        self.check(f"{what}: {said['failed']} of {said['answered']} requests are lost: {said['failures'][:3]}",
                   said["answered"] and not said["failed"])
        return sorted(said["versions"])


def end(command: subprocess.Popen[str]) -> None:
    """Tells a command of the machine to end. What has entered the name spaces has started it, and ends with it."""
    if command.poll() is None:
        for child in pathlib.Path(f"/proc/{command.pid}/task/{command.pid}/children").read_text().split():
            os.kill(int(child), signal.SIGTERM)


def begins(site: Site, package: pathlib.Path) -> None:
    """Installs the package, and enables a service."""
    machine = site.machine
    found = machine.run("useradd", "--system", "--home-dir", "/srv/site", "site")
    site.check(f"useradd: {found.stdout}", found.returncode == 0)
    installs(site, package)
    machine.write(CONFIG, PLAIN)
    machine.write(PAGE, site.text)
    machine.write(f"{LINKS}/prefork@.service.d/sooner.conf", DROP_IN)
    site.systemctl("daemon-reload")
    site.systemctl("enable", "--now", UNIT)
    waits_for("the status", lambda: site.shown("StatusText").startswith(f"2 workers of generation 1.1 at {ADDRESS}"))


def installs(site: Site, package: pathlib.Path) -> None:
    site.machine.path("/srv/the.deb").write_bytes(package.read_bytes())
    found = site.machine.run("dpkg", "--no-triggers", "--install", "/srv/the.deb")
    site.check(f"dpkg --install: {found.stdout}", found.returncode == 0)


def reloads(site: Site) -> None:
    """A reload that is sound, one whose application is broken, and one whose configuration is refused."""
    def all_kinds() -> None:
        site.systemctl("reload", UNIT)
        site.machine.write(PAGE, BROKEN)
        site.systemctl("reload", UNIT, wanted=1)
        waits_for("the status after a rollback", lambda: "last word HUP: rolled-back" in site.shown("StatusText"))
        site.machine.write(PAGE, site.text)
        site.machine.write(CONFIG, PLAIN.replace("workers", "workerz"))
        site.systemctl("reload", UNIT, wanted=1)
        site.machine.write(CONFIG, PLAIN.replace("workers = 2", "workers = 3").replace('"1"', '"2"'))
        site.systemctl("reload", UNIT)
        # (the clients ask then too)
        waits_for("an answer by the next environment", lambda: site.is_answered_by("2"))
    versions = site.loses_nothing("reloads", all_kinds)
    site.check(f"a reload leaves the environment as it is: {versions}", versions == ["1", "2"])
    waits_for("the status after a reload", lambda: site.shown("StatusText").startswith("3 workers of generation "))


def heals(site: Site) -> None:
    """A service that is killed, and one that hangs, are started again with the same sockets."""
    site.loses_nothing("kill -9", lambda: site.restarts("a start after kill -9", lambda: site.signal("KILL")))
    site.loses_nothing("a service that hangs", lambda: site.restarts("a start by the watchdog", lambda: site.signal("STOP")))
    waits_for("systemd to find that it hangs", lambda: "Watchdog timeout" in site.journal())
    old = site.main()
    site.loses_nothing("systemctl restart", lambda: site.systemctl("restart", UNIT))
    site.check("a restart leaves the same process", site.main() not in (0, old))


def upgrades(site: Site, package: pathlib.Path) -> None:
    """A newer package restarts nothing; an upgrade takes its program into use, and a restart all of it."""
    old = site.main()
    newer = newer_of(site.room, package)

    def all_steps() -> None:
        installs(site, newer)
        site.check("a new package restarts the service", site.main() == old)
        found = site.machine.run("prefork-ctl", "--folder", UNIT, "USR2")
        site.check(f"USR2: {found.stdout}", found.returncode == 0)
        site.systemctl("restart", UNIT)
    site.loses_nothing("a new package", all_steps)


def newer_of(room: Room, package: pathlib.Path) -> pathlib.Path:
    """The same package in a later version."""
    tree = room.path / "newer"
    ran("dpkg-deb", "--raw-extract", package, tree)
    control = tree / "DEBIAN" / "control"
    lines = [f"{line}.1" if line.startswith("Version: ") else line for line in control.read_text().splitlines()]
    control.write_text("".join(f"{line}\n" for line in lines))
    made = room.path / "newer.deb"
    found = ran("dpkg-deb", "-Znone", "--root-owner-group", "--build", tree, made)
    room.check(f"dpkg-deb --build: {found.stdout}", found.returncode == 0)
    return made


def stops(site: Site) -> None:
    """A request in progress is answered, and nothing is left."""
    held = site.machine.path(HELD)
    words = site.machine.command("prefork-load", "--clients", "1", "--json", "--path", "/held", "--seconds", "0.1", "--patience", PATIENCE, ADDRESS)
    with subprocess.Popen(words, stdin=subprocess.DEVNULL, stdout=subprocess.PIPE, text=True) as slow:
        try:
            waits_for("a request in progress", held.exists)
            site.systemctl("stop", "--no-block", UNIT)
            waits_for("the stop", lambda: site.shown("ActiveState") == "deactivating")
            # (so that the load begins no other request)
            time.sleep(0.2)
            held.unlink()
            said = json.loads(slow.communicate(timeout=MOST_SECONDS)[0])
        finally:
            slow.kill()
    site.check(f"a request in progress is lost: {said}", said["answered"] == 1 and not said["failed"])
    waits_for("the end", lambda: site.shown("ActiveState") in ("inactive", "failed"))
    site.check("a stop fails", (site.shown("ActiveState"), site.shown("Result")) == ("inactive", "success"))
    site.check("its folder is left", not site.machine.path(FOLDER).exists())


def fails_to_start(site: Site) -> None:
    """A first start that fails ends with its reason, and not after a limit of time; so does a name without a configuration."""
    site.machine.write(PAGE, BROKEN)
    site.systemctl("start", UNIT, wanted=1)
    # (systemd starts it again before long, and shows no result then)
    waits_for("the reason in the journal", lambda: all(text in site.journal() for text in REASON))
    site.check("a start that fails ends by a limit of time", "result 'timeout'" not in site.journal())
    site.systemctl("stop", UNIT)
    site.machine.run("systemctl", "reset-failed", UNIT)
    site.machine.write(PAGE, site.text)
    told = site.systemctl("start", "prefork@nosuch", wanted=1)
    site.check(f"a name without a configuration: {told}", "Assertion failed" in told)


def removes(site: Site) -> None:
    """Its removal stops services; a purge leaves what others have made, and no link that leads nowhere."""
    site.systemctl("start", UNIT)
    site.systemctl("enable", f"{UNIT}.socket")
    found = site.machine.run("dpkg", "--no-triggers", "--remove", "prefork")
    site.check(f"dpkg --remove: {found.stdout}", found.returncode == 0)
    site.check("it runs without its package", not site.main())
    found = site.machine.run("dpkg", "--no-triggers", "--purge", "prefork")
    site.check(f"dpkg --purge: {found.stdout}", found.returncode == 0)
    dangling = site.machine.run("find", LINKS, "-xtype", "l", "-name", "prefork*").stdout
    site.check(f"links lead nowhere: {dangling}", not dangling)
    left = sorted(os.listdir(site.machine.path("/etc/prefork")))
    site.check(f"a purge leaves {left}", left == ["site.toml"])


def runs_booted(room: Room) -> None:
    """A service of the package, from its installation to its purge."""
    package = room.the_package()
    machine, took = Machine(room), list[str]()
    try:
        machine.begin()
        site = Site(machine)
        steps: dict[str, Callable[[], None]] = {
            "installation": lambda: begins(site, package), "reloads": lambda: reloads(site), "kill, watchdog and restart": lambda: heals(site),
            "a newer package": lambda: upgrades(site, package), "stop": lambda: stops(site),
            "a start that fails": lambda: fails_to_start(site), "purge": lambda: removes(site),
        }
        for name, step in steps.items():
            began = time.monotonic()
            step()
            took.append(f"{name} {time.monotonic() - began:.1f} s")
    finally:
        machine.end()
        print(f"{room.name}: {', '.join(took)}")

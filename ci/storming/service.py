"""A service in a storm: what it runs, who its processes are, and what it has lost."""
import json
import os
import pathlib
import re
import signal
import socket
import subprocess
import sys
import time
from typing import Any, NamedTuple

import setups
from gate.addresses import free_address, is_answered
from gate.configs import configuration
from gate.processes import Mark
from gate.tally import ROOT, Tally
from gate.waiting import SECONDS, comes, until

from injecting.target import catches
from prefork_service.processes import RELAY

from .disks import Disk

BIN = ROOT / "service" / "bin"
CLIENTS, RATE, PATIENCE = 6, 60, 90
WORD_SECONDS = 400.0
OPTIONS = ["--answer-within", "15", "--ready-within", "40", "--finish", "10"]
# What a service leaves in its folder.
KEPT = {"blocks", "records", "journal", ".prefork"}
# How long before it was seen a worker may have been killed, and how long after it its requests may fail.
BEFORE_SECONDS, AFTER_SECONDS = 15.0, 20.0
KILLED = re.compile(r"worker \S+ (?:is killed|has not ended)|is not ready after|has not answered|has ended by itself|the process that holds")


class Killing(NamedTuple):
    """The moments between which a worker was killed."""

    earliest: float
    latest: float


class Stormed:
    """A service of a set-up, with the load on it."""

    def __init__(self, setup: setups.Setup, prefork: str, room: pathlib.Path):
        self.setup, self.prefork, self.room = setup, prefork, room
        self.mark, self.tally, self.version = Mark("STORM_MARK"), Tally(), 1
        self.environment = self.mark.environment(PATH=setups.path())
        self.first, self.second, self.page, self.metrics = (free_address() for _ in range(4))
        self.site, self.said = room / "site", open(room / "said", "a+")
        self.disk = Disk(room / "disk", self.environment)
        # Processes, once they are started.
        self.serve: Any = None
        self.load: Any = None
        self.killings: list[Killing] = []
        self.read = 0

    @property
    def run(self) -> pathlib.Path:
        """The folder, as everybody else names it."""
        return self.disk.outside() / "run"

    def check(self, what: str, holds: Any) -> None:
        self.tally.check([] if holds else [f"{self.setup.name}: {what}"])

    def configure(self, text: str | None = None, **settings: Any) -> None:
        """Writes the configuration: the first address, if nothing else is said."""
        new = self.room / "new.toml"
        new.write_text(configuration(**{"listeners": [self.first], "workers": 2, "timeout": 60, **settings}) if text is None else text)
        new.replace(self.room / "site.toml")

    def begin(self) -> None:
        setups.lay_out(self.setup, self.site, 1)
        self.configure()
        words = self.setup.arguments(self.site)
        words[words.index("site.toml")] = str(self.room / "site.toml")
        command: list[Any] = [*self.disk.entering(), BIN / "prefork-serve", "--folder", self.disk.place / "run", "--prefork", self.prefork]
        command += [*OPTIONS, "--page", self.page, "--metrics", self.metrics, *words]
        how: dict[str, Any] = {"env": self.environment, "cwd": self.room}
        self.serve = subprocess.Popen(command, stdin=subprocess.DEVNULL, stdout=self.said, stderr=self.said, **how)
        until("the first page", lambda: is_answered(self.first))
        until("the service", lambda: self.status().get("state") == "serves")
        asks: list[Any] = [sys.executable, ROOT / "ci" / "storming" / "clients.py", "--json", "--again", "--clients", str(CLIENTS)]
        asks += ["--rate", str(RATE), "--patience", str(PATIENCE), self.first]
        self.load = subprocess.Popen(asks, stdout=subprocess.PIPE, text=True, **how)
        until("the load", lambda: catches(self.load.pid, signal.SIGTERM))

    # What is told.

    def command(self, *words: str) -> list[Any]:
        return [*self.disk.entering(), BIN / "prefork-ctl", "--folder", self.disk.place / "run", *words]

    def told(self, *words: str, seconds: float = WORD_SECONDS) -> tuple[int, str]:
        """What prefork-ctl says, and its status; -1 if it says nothing in time."""
        how: dict[str, Any] = {"env": self.environment, "capture_output": True, "text": True, "stdin": subprocess.DEVNULL}
        try:
            found = subprocess.run(self.command(*words), timeout=seconds, **how)
        except subprocess.TimeoutExpired:
            return -1, "no answer"
        return found.returncode, found.stdout + found.stderr

    def asked(self, word: str, seconds: float = WORD_SECONDS) -> str:
        """What the service answers to a word, asked as prefork-ctl asks; what went wrong if it does not answer."""
        try:
            with socket.socket(socket.AF_UNIX) as asker:
                asker.settimeout(seconds)
                asker.connect(str(self.run / "ctl.sock"))
                asker.sendall(f"{word}\n".encode())
                with asker.makefile(errors="replace") as answer:
                    return answer.read()
        except OSError as fault:
            return repr(fault)

    def status(self) -> dict[str, Any]:
        try:
            return dict(json.loads(self.asked("status", SECONDS).splitlines()[0]))
        except (ValueError, IndexError):
            return {}

    # Who runs.

    def processes(self) -> dict[str, list[int]]:
        """The processes, by what they are."""
        found: dict[str, list[int]] = {}
        for number, words in self.mark.processes().items():
            if kind := self.kind_of(number, words):
                found.setdefault(kind, []).append(number)
        return found

    def kind_of(self, number: int, words: list[str]) -> str:
        try:
            name = pathlib.Path(f"/proc/{number}/comm").read_text().strip()
        except OSError:
            return ""
        if number == self.serve.pid:
            return "serve"
        if words[:1] == [self.prefork]:
            return {"supervise": "master", "adopt": "new master"}.get(words[1] if len(words) > 1 else "", "")
        if " ".join(words[:2]).endswith(f"{RELAY} adopt"):
            return "relay"
        for own, kind in (("prefork-keeper", "keeper"), ("prefork-watch", "watch"), ("prefork-hold", "holder"), ("worker ", "worker")):
            if name.startswith(own):
                return kind
        parent = parent_of(number)
        return "program" if parent and name_of(parent) == "prefork-hold" else ""

    def note_killing(self, earliest: float, latest: float) -> None:
        self.killings.append(Killing(earliest, latest))

    def hear(self) -> None:
        """Reads what the service has said since: of workers that it or its master has killed."""
        text = (self.room / "said").read_text(errors="replace")
        new, self.read = text[self.read :], len(text)
        now = time.monotonic()
        for _ in KILLED.findall(new):
            self.note_killing(now - BEFORE_SECONDS, now)

    # Its end.

    def end(self) -> dict[str, Any]:
        """Ends the storm: all is as it should be again, and the service stops."""
        self.disk.free()
        for numbers in self.processes().values():
            for number in numbers:
                signal_to(number, signal.SIGCONT)
        setups.lay_out(self.setup, self.site, self.version)
        self.configure()
        self.check(f"the service has ended: {self.tail()}", self.serve.poll() is None)
        self.asked("back", SECONDS)
        serves = comes(lambda: "\ndone " in self.asked("HUP"), 3 * SECONDS)
        self.check(f"the last HUP: {self.asked('HUP')}; {self.tail()}", serves)
        serves = comes(lambda: self.status().get("state") == "serves")
        self.check(f"it does not serve: {self.status()}", serves)
        found = self.end_load()
        self.check_records()
        self.stop()
        return found

    def check_records(self) -> None:
        comes(lambda: not self.status().get("records_waiting"))
        status, said = self.told("certify")
        self.check(f"certify: {status}: {said[-1500:]}", status == 0)

    def end_load(self) -> dict[str, Any]:
        """Ends the load: no request is lost but those of a worker that was killed."""
        time.sleep(0.5)
        self.hear()
        self.load.send_signal(signal.SIGTERM)
        found: dict[str, Any] = json.loads(self.load.communicate(timeout=2 * PATIENCE)[0])
        self.load = None
        lost = [failure for failure in found["failures"] if not self.is_excused(failure)]
        self.tally.check_lost([f"{self.setup.name}: {len(lost)} requests were lost: {lost[:5]}; {self.killings[-3:]}"] if lost else [])
        self.check(f"{found['failed']} requests failed at {len(self.killings)} killed workers", found["failed"] <= CLIENTS * len(self.killings))
        return found

    def is_excused(self, failure: dict[str, Any]) -> bool:
        """Whether a request was on its way when a worker was killed."""
        return any(
            failure["began"] <= killing.latest + 0.5 and killing.earliest - 0.5 <= failure["ended"] <= killing.latest + AFTER_SECONDS
            for killing in self.killings
        )

    def stop(self) -> None:
        said = self.asked("QUIT")
        self.check(f"QUIT: {said}; {self.tail()}", "\ndone " in said)
        try:
            self.check("prefork-serve ends with another status", self.serve.wait(SECONDS) == 0)
        except subprocess.TimeoutExpired:
            self.check("prefork-serve does not end", False)
        left = {number: words for number, words in self.mark.left().items()} if not self.disk.is_own else self.left_beside_disk()
        self.check(f"processes are left: {left}", not left)
        files = sorted(file.name for file in self.run.iterdir() if file.name not in KEPT)
        self.check(f"files are left: {files}", not files)
        for address in (self.first, self.second, self.page, self.metrics):
            self.check(f"{address} is open", not is_open(address))

    def left_beside_disk(self) -> dict[int, list[str]]:
        """The processes that are left, but for the one that holds the disk."""
        def others() -> dict[int, list[str]]:
            return {number: words for number, words in self.mark.processes().items() if number != self.disk.holder.pid}
        comes(lambda: not others())
        return others()

    def tail(self) -> str:
        return (self.room / "said").read_text(errors="replace")[-2000:]

    def close(self) -> None:
        """Ends what still runs, by number."""
        own = [started for started in (self.load, self.serve) if started]
        for started in own:
            # (a process that becomes another program at this very moment has no mark to be seen)
            started.kill()
        self.mark.end_all()
        for started in own:
            started.wait()
        self.disk.close()
        self.said.close()


def is_open(address: str) -> bool:
    host, _, port = address.rpartition(":")
    try:
        socket.create_connection((host, int(port)), 5).close()
        return True
    except OSError:
        return False


def parent_of(process: int) -> int:
    try:
        return int(pathlib.Path(f"/proc/{process}/stat").read_text().rpartition(")")[2].split()[1])
    except (OSError, ValueError, IndexError):
        return 0


def name_of(process: int) -> str:
    try:
        return pathlib.Path(f"/proc/{process}/comm").read_text().strip()
    except OSError:
        return ""


def signal_to(process: int, number: int) -> bool:
    try:
        os.kill(process, number)
        return True
    except ProcessLookupError:
        return False

"""A service in a folder of its own, under load, and what is looked at in it."""
import json
import math
import os
import pathlib
import re
import shutil
import signal
import subprocess
import sys
import time
from collections.abc import Callable, Collection, Iterable
from typing import Any

from gate.addresses import answer_of, free_address, is_answered
from gate.configs import configuration
from gate.processes import Mark
from gate.tally import ROOT, Tally
from gate.waiting import SECONDS, Wrong, comes, until

SERVICE = ROOT / "service"
BIN = SERVICE / "bin"
# Of all clients of a scenario together; what was reached is looked at after it.
RATE = 260
# How long a request may wait. Where nobody serves for a while requests wait, on a busy machine for many seconds.
PATIENCE = 50
CLIENTS = 8
# The state of a socket that listens, in /proc/net/tcp.
LISTENS = "0A"
CENSUS = re.compile(r"census \S+ : counted (\S+)$", re.M)
# An application that cannot start, neither as a worker nor as a new master.
BROKEN = "#!/bin/sh\nexit 7\n"


def size_of(numbers: str) -> int:
    """How many workers a census has counted: `0-2,5` are four."""
    pairs = [part.partition("-") for part in numbers.split(",") if part != "none"]
    return sum(int(last or first) - int(first) + 1 for first, _, last in pairs)


def descriptors(count: int) -> list[str]:
    """What starts a command whose processes may have this number of descriptors."""
    return ["sh", "-c", f'ulimit -n {count} && exec "$@"', "sh"]


def text_of(file: pathlib.Path) -> str:
    return file.read_text() if file.exists() else ""


def name_of(process: int) -> str:
    """The name of a process; nothing if it has ended."""
    try:
        return pathlib.Path(f"/proc/{process}/comm").read_text().rstrip("\n")
    except OSError:
        return ""


def catches(process: int, number: int) -> bool:
    """Whether a process takes a signal by itself."""
    caught = re.search(r"^SigCgt:\s*([0-9a-f]+)$", text_of(pathlib.Path(f"/proc/{process}/status")), re.M)
    return caught is not None and bool(int(caught[1], 16) >> (number - 1) & 1)


def is_worker(words: list[str], own: list[str]) -> bool:
    """Whether a process is a worker, and not what watches one."""
    return words[-len(own) :] == own and not any(word.startswith(f"{SERVICE}/") for word in words)


class Site:
    """A service in a folder of its own, with the load on it, and what was wrong."""

    def __init__(self, prefork: str, room: str, name: str):
        self.room, self.name = pathlib.Path(room), name
        # Options of `serve`.
        self.options: Iterable[str] = ()
        # The program of masters, which a scenario can replace, and the one that certifies.
        self.prefork, self.certifier = str(self.room / "prefork"), prefork
        (self.room / "prefork").symlink_to(prefork)
        self.mark, self.tally, self.slowest_rate = Mark("SITE_MARK"), Tally(), math.inf
        # What starts `serve`: words before its own, and descriptors that it inherits.
        self.before: list[str] = []
        self.given: list[int] = []
        # The program that runs in place of the double, with an adapter, if there is one.
        self.program: list[str] = []
        # Whether the configuration says so, and not the command line.
        self.is_in_file = False
        # Whether a preloader forks the workers, which have their names and not words of their own.
        self.is_forked = False
        # More options of the load.
        self.load_options: list[str] = []
        # Whether the blocks are where they usually are.
        self.is_recorded = True
        # Processes, once they are started.
        self.load: Any = None
        self.serve: Any = None
        self.home, self.run, self.hold = self.room / "site", self.room / "run", self.room / "hold"
        self.config = self.room / "site.toml"
        self.home.mkdir()
        for file in (SERVICE / "double").iterdir():
            if file.is_file():
                shutil.copy(file, self.home)
        self.app_text = (self.home / "app").read_text()
        self.first, self.second = free_address(), free_address()
        interpreter = str(pathlib.Path(sys.executable).parent)
        self.environment = self.mark.environment(PATH=f"{interpreter}:{os.environ['PATH']}")
        self.said = open(self.room / "said", "w+")

    # What it consists of.

    def configure(self, file: str = "site.toml", **settings: Any) -> None:
        """Writes a configuration: the first address and two workers, if nothing else or groups are said."""
        served = {} if "groups" in settings else {"listeners": [self.first], "workers": 2}
        command = [str(self.home / "app"), "child"]
        settings = {**served, "command": None if self.program or self.is_forked else command, "timeout": 60, **settings}
        new = self.room / "new.toml"
        new.write_text(configuration(**{key: value for key, value in settings.items() if value is not None}))
        new.replace(self.room / file)

    def go_over_to(self, **settings: Any) -> None:
        """Writes the configuration that the next word goes over to, and keeps it to certify with."""
        self.configure("to.toml", **settings)
        self.configure(**settings)

    def install(self, text: str) -> None:
        """Puts another application in the place of the one that runs."""
        new = self.home / "new"
        new.write_text(text)
        new.chmod(0o755)
        new.replace(self.home / "app")

    def replace_master(self, text: str | None = None) -> None:
        """Puts another program in the place of the masters', or the right one back."""
        new = self.room / "new-master"
        if text is None:
            new.symlink_to(self.certifier)
        else:
            new.write_text(text)
            new.chmod(0o755)
        new.replace(self.prefork)

    def version(self, number: int, waits: str = "") -> str:
        """The text of the application in another version, whose workers wait while a file is there."""
        loop = f'\nwhile sys.argv[1:] == ["child"] and os.path.exists({waits!r}):\n    time.sleep(0.02)\n'
        more = loop if waits else ""
        return self.app_text.replace('VERSION = "1"', f'VERSION = "{number}"{more}')

    def hold_slow(self) -> pathlib.Path:
        """Lets the slow page make a file when it is asked for, and wait while another one is there."""
        began = self.room / "slow"
        makes = f"open({str(began)!r}, 'w').close()"
        slow = f"{makes}\n        while os.path.exists({str(self.hold)!r}):\n            time.sleep(0.02)"
        self.app_text = self.app_text.replace("time.sleep(3)", slow)
        self.install(self.app_text)
        self.hold.touch()
        return began

    def let_go_once(self, said: str) -> None:
        """Ends the wait of the slow page once `serve` has said something."""
        until(said, lambda: said in text_of(self.room / "said"))
        self.hold.unlink()

    # Who runs.

    def begin(self, **settings: Any) -> None:
        """Starts it with a configuration, and the load on its first address."""
        self.configure("from.toml", **settings)
        self.configure("to.toml", **settings)
        self.configure(**settings)
        self.serve = self.started()
        until("the pid file of serve", lambda: text_of(self.run / "serve.pid") == f"{self.serve.pid}\n")
        until("the first block", lambda: "\ndone " in self.blocks() or not self.is_recorded)
        until("the first answer", lambda: is_answered(self.first))
        self.begin_load()

    def begin_load(self) -> None:
        self.load = subprocess.Popen(
            [
                BIN / "prefork-load", "--json", "--clients", str(CLIENTS), "--rate", str(RATE), "--patience",
                str(PATIENCE), *self.load_options, self.first,
            ],
            stdout=subprocess.PIPE, text=True, env=self.environment, cwd=self.room,
        )
        until("the load", lambda: catches(self.load.pid, signal.SIGTERM))
        # So that there is load before the first word.
        time.sleep(0.5)

    def started(self, *more: str) -> subprocess.Popen[bytes]:
        command: list[Any] = [*self.before, BIN / "prefork-serve", *more, "--folder", self.run, "--prefork", self.prefork]
        command += [*self.options, "site.toml", *(["--", *self.program] if self.program and not self.is_in_file else [])]
        streams: dict[str, Any] = {"stdin": subprocess.DEVNULL, "stderr": self.said, "pass_fds": self.given}
        return subprocess.Popen(command, env=self.environment, cwd=self.room, **streams)

    def blocks(self) -> str:
        return text_of(self.run / "blocks")

    def workers(self) -> set[int]:
        """The processes that are workers."""
        if self.is_forked:
            return self.named("worker ")
        own = self.program or [str(self.home / "app"), "child"]
        return {number for number, words in self.mark.processes().items() if is_worker(words, own)}

    def named(self, begin: str) -> set[int]:
        """The processes whose name begins so."""
        return {number for number in self.mark.processes() if name_of(number).startswith(begin)}

    def has_others(self, old: Collection[int], count: int = 2) -> bool:
        """Whether this number of workers runs and none of the old ones, in one look at the processes."""
        now = self.workers()
        return len(now) == count and not now & set(old)

    def found(self, is_it: Callable[[list[str]], bool]) -> int | None:
        """The process whose arguments are the wanted ones."""
        return next((number for number, words in self.mark.processes().items() if is_it(words)), None)

    def new_master(self) -> int | None:
        """The new master, once it is one."""
        return self.found(lambda words: words[:2] == [self.prefork, "adopt"])

    def master(self) -> int | None:
        """The master that `serve` has started."""
        return self.found(lambda words: words[:2] == [self.prefork, "supervise"] and words[2:] != ["--help"])

    def keeper(self) -> int | None:
        return self.found(lambda words: str(BIN / "prefork-keeper") in words[:3])

    def listening(self) -> set[tuple[str, str]]:
        """The sockets that listen at its two ports, as the system numbers them."""
        ports = {f"{int(address.rpartition(':')[2]):04X}" for address in (self.first, self.second)}
        lines = [line.split() for line in pathlib.Path("/proc/net/tcp").read_text().splitlines()[1:]]
        found = [(words[1].partition(":")[2], words[9]) for words in lines if words[3] == LISTENS]
        return {(port, inode) for port, inode in found if port in ports}

    def kill(self, number: int | None) -> None:
        """Kills a process that was found."""
        if number is None:
            raise Wrong("no process to kill")
        os.kill(number, signal.SIGKILL)

    # What is told and wanted.

    def check(self, what: str, holds: Any) -> None:
        self.tally.check([] if holds else [f"{self.name}: {what}"])

    def sent(self, word: str) -> subprocess.Popen[str]:
        """A word on its way: `ctl`."""
        command: list[Any] = [BIN / "prefork-ctl", "--folder", self.run, word]
        streams: dict[str, Any] = {"stdout": subprocess.PIPE, "stderr": subprocess.PIPE}
        return subprocess.Popen(command, **streams, text=True, env=self.environment)

    def question(self) -> str:
        """What `ctl` says without a word."""
        command: list[Any] = [BIN / "prefork-ctl", "--folder", self.run]
        return subprocess.run(command, capture_output=True, text=True, env=self.environment, timeout=SECONDS).stdout

    def wants(self, word: str, status: int, report: str, workers: int) -> str:
        """Sends a word and looks at what comes of it."""
        return self.heard(self.sent(word), word, status, report, workers)

    def heard(self, sent: subprocess.Popen[str], word: str, status: int, report: str, workers: int) -> str:
        """Waits for what comes of a word, and looks at it."""
        block, faults = sent.communicate(timeout=SECONDS)
        self.check(f"{word}: ctl's status is {sent.returncode}: {block}{faults}", sent.returncode == status)
        self.check(f"{word}: the block is {block!r}", block.startswith(f"word {word}\n"))
        self.check(f"{word}: the report is {block!r}", block.rstrip("\n").rpartition("\n")[2].startswith(report))
        counted = CENSUS.findall(block)
        self.check(f"{word}: counted {counted}", counted and size_of(counted[-1]) == workers)
        self.check_workers(word, workers)
        return block

    def wants_refused(self, word: str, report: str) -> None:
        """Sends a word that is refused before anything is done."""
        block, faults = self.sent(word).communicate(timeout=SECONDS)
        self.check(f"{word}: not refused as {report}: {block}{faults}", block == f"word {word}\n{report}\n")

    def check_workers(self, word: str, wanted: int) -> None:
        """Old workers that finish what they serve are still there for a moment."""
        is_met = comes(lambda: len(self.workers()) == wanted)
        self.check(f"{word}: {len(self.workers())} workers run, and {wanted} are wanted", is_met)

    def answered_by(self, version: int) -> None:
        until(f"an answer by version {version}", lambda: f"version {version} " in answer_of(self.first))

    # Its end.

    def end_load(self) -> dict[str, Any]:
        """What the load says; it has a while more, so that what comes of the last word is met by it."""
        time.sleep(0.5)
        self.load.send_signal(signal.SIGTERM)
        found: dict[str, Any] = json.loads(self.load.communicate(timeout=SECONDS)[0])
        self.load = None
        self.slowest_rate = min(self.slowest_rate, found["rate"])
        return found

    def end(self, versions: Iterable[str], may_fail: int = 0, perhaps: Iterable[str] = ()) -> dict[str, Any]:
        """Ends load and service, and looks at what is left. These versions have answered, and perhaps the others."""
        found = self.end_load()
        self.check_load(found, versions, may_fail, perhaps)
        self.stop()
        return found

    def stop(self) -> None:
        """Ends the service, and looks at what is left."""
        sent = self.sent("QUIT")
        block, faults = sent.communicate(timeout=SECONDS)
        self.check(f"QUIT: {sent.returncode}, {block}{faults}", sent.returncode == 0)
        self.check("serve ends with another status", self.serve.wait(SECONDS) == 0)
        self.nothing_left()

    def check_load(
        self, found: dict[str, Any], versions: Iterable[str], may_fail: int = 0, perhaps: Iterable[str] = (),
    ) -> None:
        lost = f"{self.name}: {found['failed']} requests failed: {found['failures']}"
        self.tally.check_lost([lost] if found["failed"] > may_fail else [])
        self.check(f"answers of {found['versions']}", set(found["versions"]) - set(perhaps) == set(versions))

    def nothing_left(self) -> None:
        """No process, and no file but records, journal and the mark of the folder, of it is left."""
        running = self.mark.left()
        self.check(f"processes are left: {running}", not running)
        kept = {"blocks", "records", "journal", ".prefork"}
        left = sorted(file.name for file in self.run.iterdir() if file.name not in kept) if self.run.exists() else []
        self.check(f"files are left: {left}", not left)

    def certify(self, text: str | None = None) -> None:
        """`certify` accepts the blocks."""
        command = [self.certifier, "certify", "--bare", "--from", "from.toml", "--to", "to.toml"]
        blocks = self.blocks() if text is None else text
        said = subprocess.run(command, input=blocks, cwd=self.room, capture_output=True, text=True, timeout=SECONDS)
        self.check(f"certify: {said.stderr}{blocks[-2000:]}", said.returncode == 0)

    def close(self) -> None:
        """Ends what still runs, by number."""
        own = [started for started in (self.load, self.serve) if started]
        for started in own:
            # (a process that becomes another program at this very moment has no mark to be seen)
            started.kill()
        self.mark.end_all()
        for started in own:
            started.wait()
        self.said.close()


Scenario = Callable[[Site], None]

"""A service under load, whose programs can be started under strace."""
import dataclasses
import json
import pathlib
import re
import shutil
import signal
import socket
import subprocess
import sys
import time
from typing import Any

from gate.addresses import answer_of, free_address, is_answered
from gate.configs import configuration
from gate.processes import Mark
from gate.tally import ROOT
from gate.waiting import SECONDS, comes, until

SERVICE = ROOT / "service"
CLIENTS, RATE, PATIENCE = 4, 80, 60
WORKERS = 2
# How long a word may take: a master that hangs is killed before that.
WORD_SECONDS = 200.0
LIMITS = ["--answer-within", "15", "--ready-within", "45"]
# What a service leaves in its folder.
KEPT = {"blocks", "records", "journal", ".prefork"}
# The program NAME, which is started under strace once there is a file `armed.NAME` with the options.
WRAPPER = """#!/bin/sh
real=$0.real
case "{name}:$1" in master:supervise) exec "$real" "$@" ;; esac
if mv "$FAULTS_ROOM/armed.{name}" "$FAULTS_ROOM/fired.{name}" 2>/dev/null; then
    exec strace -D {follows} -qq -s 80 -o "$FAULTS_ROOM/log.{name}" $(cat "$FAULTS_ROOM/fired.{name}") "$real" "$@"
fi
exec "$real" "$@"
"""
# An adapter is followed with the process that holds its program, up to the program itself.
FOLLOWS = {"launch": "", "activate": "-f -b execve", "read": "", "master": ""}
APP = """def app(environ, start_response):
    start_response("200 OK", [("Content-Type", "text/plain")])
    return [b"version 1\\n"]
"""


def catches(process: int, number: int) -> bool:
    """Whether a process takes a signal by itself."""
    caught = re.search(r"^SigCgt:\s*([0-9a-f]+)$", pathlib.Path(f"/proc/{process}/status").read_text(), re.M)
    return caught is not None and bool(int(caught[1], 16) >> (number - 1) & 1)


def name_of(process: int) -> str:
    try:
        return pathlib.Path(f"/proc/{process}/comm").read_text().strip()
    except OSError:
        return ""


def replace_by_wrapper(program: pathlib.Path, name: str) -> None:
    program.rename(f"{program}.real")
    program.write_text(WRAPPER.format(name=name, follows=FOLLOWS[name]))
    program.chmod(0o755)


class Tree:
    """A copy of the service whose programs can be started under strace, and of the masters' program."""

    def __init__(self, place: pathlib.Path, prefork: str):
        self.place, self.certifier = place, prefork
        for name in ("bin", "libexec", "prefork_service", "out"):
            shutil.copytree(SERVICE / name, place / name)
        subprocess.run([sys.executable, "-m", "compileall", "-q", place / "prefork_service"], check=True)
        self.prefork = place / "prefork"
        shutil.copy(prefork, self.prefork)
        for name in ("launch", "activate"):
            replace_by_wrapper(place / "out" / f"prefork-{name}", name)
        replace_by_wrapper(place / "libexec" / "prefork-read", "read")
        replace_by_wrapper(self.prefork, "master")
        page = SERVICE / "tests" / "programs" / "page.c"
        subprocess.run(["cc", "-std=gnu11", "-O2", "-o", place / "page", page], check=True)


REPORT = re.compile(r"^(done|rolled-back|degraded|refused|lost|nothing|unread|\{)", re.M)
UNANSWERED, DROPPED = "unanswered", "dropped"


@dataclasses.dataclass
class Said:
    """What came of a word."""

    word: str
    text: str

    def report(self) -> str:
        """The first word of the report; a status has none. An asker may be dropped, and is not left without an answer."""
        found = REPORT.findall(self.text)
        return str(found[-1]).replace("{", "told") if found else UNANSWERED if "timed out" in self.text else DROPPED

    def __str__(self) -> str:
        return f"{self.word} {self.report()}"


class Target:
    """A service of the tree, with the load on it."""

    def __init__(self, tree: Tree, room: pathlib.Path, python: str | None = None):
        self.tree, self.room, self.python = tree, room, python
        self.mark, self.address = Mark("FAULTS_MARK"), free_address()
        self.environment = self.mark.environment(FAULTS_ROOM=str(room))
        self.run, self.said = room / "run", open(room / "said", "w+")
        # Processes, once they are started.
        self.serve: Any = None
        self.load: Any = None

    # Who runs.

    def begin(self) -> None:
        config = configuration(listeners=[self.address], workers=WORKERS, timeout=60)
        (self.room / "site.toml").write_text(config)
        (self.room / "app.py").write_text(APP)
        program = ["--", str(self.tree.place / "page")]
        wsgi = ["--python", self.python or "", "--wsgi", "app:app"]
        command: list[Any] = [self.tree.place / "bin" / "prefork-serve", "--folder", self.run, "--prefork", self.tree.prefork, *LIMITS]
        command += [*wsgi, "site.toml"] if self.python else ["site.toml", *program]
        how: dict[str, Any] = {"env": self.environment, "cwd": self.room}
        self.serve = subprocess.Popen(command, stdin=subprocess.DEVNULL, stderr=self.said, **how)
        until("the first answer", lambda: is_answered(self.address))
        self.waits_to_serve()
        asks: list[Any] = [self.tree.place / "bin" / "prefork-load", "--json", "--again", "--clients", str(CLIENTS), "--rate", str(RATE)]
        self.load = subprocess.Popen([*asks, "--patience", str(PATIENCE), self.address], stdout=subprocess.PIPE, text=True, **how)
        until("the load", lambda: catches(self.load.pid, signal.SIGTERM))

    def waits_to_serve(self) -> bool:
        return comes(lambda: self.has_ended() or self.status().get("state") == "serves") and not self.has_ended()

    def process_of(self, role: str) -> int | None:
        """The process of a role that runs now."""
        if role == "serve":
            return int(self.serve.pid)
        if role == "wsgi":
            workers: list[dict[str, Any]] = self.status().get("workers") or [{}]
            return workers[0].get("process")
        for number, words in self.mark.processes().items():
            is_master = role == "master" and "supervise" in words[:3] and words[-1:] != ["--help"]
            if is_master or name_of(number) == f"prefork-{role}":
                return number
        return None

    def status(self) -> dict[str, Any]:
        try:
            return dict(json.loads(self.told("status").text.splitlines()[0]))
        except (ValueError, IndexError):
            return {}

    # What is told.

    def told(self, word: str) -> Said:
        """What the service answers to a word, asked as prefork-ctl asks."""
        try:
            with socket.socket(socket.AF_UNIX) as asker:
                asker.settimeout(WORD_SECONDS)
                asker.connect(str(self.run / "ctl.sock"))
                asker.sendall(f"{word}\n".encode())
                with asker.makefile(errors="replace") as answer:
                    return Said(word, answer.read())
        except OSError as fault:
            return Said(word, repr(fault))

    def said_since(self, place: int) -> str:
        """What the service has said on standard error from a place on."""
        return (self.room / "said").read_text(errors="replace")[place:]

    def has_ended(self) -> bool:
        return self.serve.poll() is not None

    # Its end.

    def end_load(self) -> dict[str, Any]:
        """What the load says."""
        time.sleep(0.3)
        self.load.send_signal(signal.SIGTERM)
        found: dict[str, Any] = json.loads(self.load.communicate(timeout=2 * SECONDS)[0])
        self.load = None
        return found

    def left(self, seconds: float = SECONDS) -> list[str]:
        """What is left of a service that has ended: processes, files, and who listens at its address."""
        running = self.mark.left(seconds)
        places = [file.relative_to(self.run) for file in self.run.rglob("*")]
        files = sorted(str(place) for place in places if place.parts[0] not in KEPT)
        found = [f"processes are left: {running}"] if running else []
        found += [f"files are left: {files}"] if files else []
        try:
            answer_of(self.address, seconds=5)
            found.append("it is served still")
        except ConnectionRefusedError:
            pass
        except OSError as fault:
            found.append(f"its address: {fault!r}")
        return found

    def certified(self) -> str:
        """Why `certify` does not accept the records; nothing if it does."""
        command: list[Any] = [self.tree.place / "bin" / "prefork-ctl", "--folder", self.run, "certify"]
        said = subprocess.run(command, env=self.environment, capture_output=True, text=True, timeout=WORD_SECONDS)
        return "" if said.returncode == 0 else f"certify: {said.returncode}: {said.stdout[-300:]}{said.stderr[-600:]}"

    def close(self) -> None:
        """Ends what still runs, by number."""
        own = [started for started in (self.load, self.serve) if started]
        for started in own:
            # (a process that becomes another program at this very moment has no mark to be seen)
            started.kill()
        self.mark.end_all()
        for started in own:
            started.wait()
        self.said.close()


def slow_answer(address: str) -> str:
    """The answer to a request that takes a second."""
    try:
        return answer_of(address, "/slow")
    except OSError as fault:
        return repr(fault)


def killed_in(said: str) -> bool:
    """Whether the service has said that it, or its master, has killed a worker."""
    return bool(re.search(r"worker \S+ (?:is killed|has not ended)", said))

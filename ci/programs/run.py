"""A program under the service, in releases that come by a symbolic link, and what is looked at in it."""
import concurrent.futures
import functools
import os
import pathlib
import re
import shutil
import signal
import subprocess
import threading
import time
from typing import Any

import kit
import setups
from gate.addresses import answer_of, free_address
from gate.configs import configuration
from gate.processes import Mark
from gate.tally import ROOT, Tally
from gate.waiting import SECONDS, comes, until
from prefork_service.options import arguments as options_of
from prefork_service.options import worker_command
from programs import fastcgi
from programs.clients import PATIENCE, HttpLoad, Load, OwnLoad

BIN = ROOT / "service" / "bin"
# Clients that ask for the slow page while a word is carried out, and the pause between their beginnings.
SLOW_CLIENTS, SLOW_PAUSE = 2, 0.5
# How long an application may take to be ready, as long as the adapter gives it by default: a busy machine has been seen
# to take more than 12 seconds to start one. One that hangs takes it all.
READY_SECONDS = 30
# What a service leaves in its folder.
KEPT = ("blocks", "records", "journal", ".prefork")
# What a version does that starts, and fails each request.
ANSWERS_500 = "answers with 500"
# What is wrong with an adapter that says too early that its program is ready, and a call that starts a worker.
WAS_READY = "a worker of it was ready"
FORKED = re.compile(r"^\d+ m\d+ fork (\d+)\.(\d+) ", re.M)
# The process between an adapter and its program.
HOLDER = "prefork-hold"


def text_in(path: pathlib.Path) -> str:
    """What a file has; nothing where it is not there yet."""
    try:
        return path.read_text()
    except (FileNotFoundError, ProcessLookupError):
        return ""


def is_alive(process: int) -> bool:
    """Whether a process runs, or is stopped."""
    state = text_in(pathlib.Path(f"/proc/{process}/stat")).rpartition(")")[2].split()[:1]
    return bool(state) and state != ["Z"]


def children(process: int) -> list[int]:
    return [int(text) for text in text_in(pathlib.Path(f"/proc/{process}/task/{process}/children")).split()]


def below(process: int, name: str) -> list[int]:
    """The children of this name."""
    return [child for child in children(process) if text_in(pathlib.Path(f"/proc/{child}/comm")).strip() == name]


def family_of(process: int) -> list[int]:
    """A process, and all that descend from it."""
    return [process] + [number for child in children(process) for number in family_of(child)]


def was_ready(block: str) -> bool:
    """Whether a worker of the newest generation of a block was ready."""
    forked = [(int(image), int(number)) for image, number in FORKED.findall(block)]
    newest = ".".join(map(str, max(forked, default=(0, 0))))
    return f" await-ready {newest} " in "".join(line for line in block.splitlines() if line.endswith(" : ready"))


class Run:
    """A set-up under the service, with the load on it, and what was wrong."""

    def __init__(self, setup: setups.Setup, prefork: str, room: pathlib.Path, wrong: str = ""):
        self.setup, self.prefork, self.room, self.is_wrong_adapter = setup, prefork, room, wrong
        self.mark, self.address, self.version = Mark("ADAPTERS_OF"), free_address(), 0
        # The symbolic link to the release that is to run, the release that runs, and how many there were.
        self.site, self.runs, self.releases = room / "site", room, 0
        self.folder, self.tally, self.addresses = room / "run", Tally(), tuple([self.address])
        # Processes, once they are started.
        self.serve: Any = None
        self.load: Load | None = None
        self.environment = self.mark.environment(PATH=setups.path())
        self.said = open(room / "said", "w+")
        # What is worth telling, though it is no fault.
        self.notes: list[str] = []

    def go(self) -> None:
        raise NotImplementedError

    def check(self, what: str, holds: bool) -> None:
        self.tally.check([] if holds else [f"{self.setup.name}: {what}"])

    # Releases.

    def release(self, breaks: str = "") -> pathlib.Path:
        """Lays out the next version in a folder of its own, which may not start, and lets the link lead there. All others
        but the one that runs are removed."""
        self.releases += 1
        folder = self.room / "releases" / str(self.releases)
        setups.lay_out(self.setup, folder, self.version + 1, ".", 500 if breaks == ANSWERS_500 else 200)
        if breaks not in ("", ANSWERS_500):
            setups.break_it(self.setup, folder, breaks)
        self.lead_to(folder)
        for other in folder.parent.iterdir():
            if other not in (folder, self.runs):
                shutil.rmtree(other)
        return folder

    def lead_to(self, folder: pathlib.Path) -> None:
        new = self.room / "new"
        new.symlink_to(folder)
        new.replace(self.site)

    # The service.

    def options(self) -> list[str]:
        return ["--ready-within", str(READY_SECONDS)]

    def arguments(self) -> list[str]:
        """The arguments of prefork-serve; for a wrong adapter its command is that of the configuration."""
        given = [*self.options(), *self.setup.arguments(self.site, ".")]
        if not self.is_wrong_adapter:
            return given if "--chdir" in given else ["--chdir", str(self.site), *given]
        between = [kit.PYTHON, str(kit.PROGRAMS / "wrong_adapter.py"), self.is_wrong_adapter]
        command = [*between, *(worker_command(options_of(given)) or [])]
        quoted = " ".join("'" + word.replace("'", "'\\''") + "'" for word in command)
        setups.put(self.room / "worker", f"#!/bin/sh\nexec {quoted}\n")
        return ["--chdir", str(self.site), "site.toml"]

    def configure(self, *addresses: str, **more: Any) -> None:
        settings: dict[str, Any] = {"listeners": list(addresses), "workers": 2, "timeout": 60, **more}
        if self.is_wrong_adapter:
            settings["command"] = [str(self.room / "worker")]
        new = self.room / "new.toml"
        new.write_text(configuration(**settings))
        new.replace(self.room / "site.toml")

    def begin(self, **settings: Any) -> None:
        """Starts the service with the first version."""
        self.runs = self.release()
        self.version = 1
        words = self.arguments()
        self.configure(self.address, **settings)
        command: list[Any] = [BIN / "prefork-serve", "--folder", self.folder, "--prefork", self.prefork, *words]
        how: dict[str, Any] = {"env": self.environment, "cwd": self.room}
        self.serve = subprocess.Popen(command, stdin=subprocess.DEVNULL, stdout=self.said, stderr=self.said, **how)
        until("the first page", lambda: self.is_served(self.address))
        until("the first block", lambda: "\ndone " in text_in(self.folder / "blocks"))

    def sent(self, word: str) -> tuple[int, str]:
        """The status of a word, and its block."""
        command: list[Any] = [BIN / "prefork-ctl", "--folder", self.folder, word]
        found = subprocess.run(command, env=self.environment, capture_output=True, text=True, timeout=2 * SECONDS)
        return found.returncode, found.stdout + found.stderr

    def workers(self) -> list[int]:
        """The processes of the workers that run, as their master knows them."""
        files = [text_in(file).split() for file in (self.folder / "workers").iterdir()]
        return [int(words[0]) for words in files if words and is_alive(int(words[0]))]

    def chains(self) -> list[list[int]]:
        """Of each worker that has begun its program: the worker, what holds the program, the program, and a child of that
        if there is one. A worker that is an application is one process."""
        if not self.setup.start:
            return [[worker] for worker in self.workers()]
        chains = [[worker, *below(worker, HOLDER)[:1]] for worker in self.workers()]
        for _ in range(2):
            chains = [[*chain, *children(chain[-1])[:1]] for chain in chains if len(chain) >= 2]
        return [chain for chain in chains if len(chain) >= 3]

    # Requests.

    def ask(self, address: str, path: str = "/") -> str:
        """The text of an answer. Raises OSError."""
        if self.setup.is_fastcgi:
            return fastcgi.answer_of(address, str(self.site / "app.php"), path, PATIENCE)
        return answer_of(address, path, PATIENCE)

    def page(self, address: str, path: str = "/") -> str:
        try:
            return self.ask(address, path)
        except OSError as fault:
            return f"{fault!r}"

    def is_served(self, address: str) -> bool:
        return f"version {self.version} " in self.page(address).replace("\n", " ")

    def begin_load(self) -> None:
        if self.setup.is_fastcgi:
            self.load = OwnLoad(functools.partial(self.ask, self.address))
        else:
            self.load = HttpLoad([BIN / "prefork-load", self.address], env=self.environment, cwd=self.room)

    def end_load(self) -> None:
        """Ends the load, a while after the last word."""
        if not self.load:
            return
        time.sleep(0.5)
        found = self.load.end(2 * SECONDS)
        self.load = None
        lost = f"{self.setup.name}: {found['failed']} of {found['answered']} requests were lost: {found['failures'][:3]}"
        self.tally.check_lost([lost] if found["failed"] else [])
        self.notes.append(f"{found['failed']} of {found['answered']} lost")
        versions = {str(number + 1) for number in range(self.version)}
        self.check(f"answers of {found['versions']}", set(found["versions"]) <= versions)

    # Words.

    def goes_over(self, word: str, *addresses: str) -> None:
        """The next version, at these addresses if any are named, with slow requests in progress all the while, which are
        answered. The addresses that are dropped refuse once the word is done."""
        self.addresses, dropped = addresses or self.addresses, set(self.addresses) - set(addresses or self.addresses)
        at = self.address if self.address in self.addresses else self.addresses[0]
        self.configure(*self.addresses)
        folder = self.release()
        self.version += 1
        asks = SLOW_CLIENTS if self.address in self.addresses and not dropped & {self.address} else 0
        status, block, wrong = self.sent_under_slow(word, at, asks)
        self.check(f"{word} to {addresses}: status {status}: {block}", status == 0)
        self.check(f"{word}: slow requests were answered by {wrong[:3]}", not wrong)
        for address in dropped:
            self.check(f"{word} to {addresses}: {address} is still open", not kit.is_open(address))
        for address in self.addresses:
            served = comes(functools.partial(self.is_served, address))
            self.check(f"{word} to {addresses}: {address} has {self.page(address)!r}", served)
        self.address, self.runs = at, folder

    def sent_under_slow(self, word: str, address: str, count: int) -> tuple[int, str, list[str]]:
        """The status of a word and its block, and what slow requests were answered by that is not their page."""
        is_over = threading.Event()
        with concurrent.futures.ThreadPoolExecutor(SLOW_CLIENTS) as pool:
            slow = [pool.submit(self.ask_slowly, address, is_over, at * SLOW_PAUSE) for at in range(count)]
            time.sleep(0.3 if slow else 0)
            try:
                status, block = self.sent(word)
            finally:
                is_over.set()
            return status, block, [answer for client in slow for answer in client.result()]

    def ask_slowly(self, address: str, is_over: threading.Event, pause: float) -> list[str]:
        """Asks for the slow page again and again; the beginnings of answers that are not whole."""
        wrong = []
        time.sleep(pause)
        while not is_over.is_set():
            answer = self.page(address, "/slow")
            whole = len(answer) == len(setups.SLOW_PAGE) if answer.endswith("x") else answer.startswith("version ")
            wrong += [] if whole else [answer[:100]]
        return wrong

    def rolls_back(self, breaks: str, word: str = "HUP", report: str = "rolled-back ") -> None:
        """A release that does not start: the old one serves on, and the link leads to it again."""
        self.release(breaks)
        status, block = self.sent(word)
        told = f"an application that {breaks}: {word}: status {status}: {block}"
        self.check(told, status == 3 and f"\n{report}" in block)
        self.check(f"an application that {breaks}: {word}: {WAS_READY}: {block}", not was_ready(block))
        self.check(f"an application that {breaks}: the old one is gone", self.page(self.address).startswith("version "))
        self.lead_to(self.runs)

    # Its end.

    def stop(self) -> None:
        """Ends the service: no process, socket or file is left."""
        status, block = self.sent("QUIT")
        self.check(f"QUIT: status {status}: {block}", status == 0)
        self.check("prefork-serve ends with another status", self.serve.wait(SECONDS) == 0)
        running = self.mark.left()
        self.check(f"processes are left: {running}", not running)
        # (nginx writes over its environment, and the mark in it)
        for address in self.addresses:
            self.check(f"somebody still has {address}", comes(lambda: not kit.is_open(address)))
        left = sorted(file.name for file in self.folder.iterdir() if file.name not in KEPT)
        self.check(f"files are left: {left}", not left)

    def certify(self) -> None:
        command: list[Any] = [self.prefork, "certify", "--bare", "--from", self.room / "site.toml"]
        with open(self.folder / "blocks") as blocks:
            found = subprocess.run(command, stdin=blocks, capture_output=True, text=True, timeout=SECONDS)
        self.check(f"certify: {found.stderr}", found.returncode == 0)

    def close(self) -> None:
        """Ends what still runs, by number; what adapters have started last, by the processes that hold it."""
        if self.load:
            self.load.close()
        for number in self.mark.processes():
            # (one that is stopped passes nothing on)
            os.kill(number, signal.SIGCONT)
        kit.end_all(self.mark.processes)
        if self.serve:
            self.serve.wait()
        self.said.close()

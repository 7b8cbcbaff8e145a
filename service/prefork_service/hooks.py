"""Programs of an operator that are told what happens: each gets it as JSON on its standard input. Nobody waits for them."""
import collections
import errno
import json
import os
import signal
import subprocess
import time
from typing import Any

from .burying import started
from .folder import say
from .systemd import OF_SYSTEMD

OF_OUTCOMES = {"done": "on-done", "rolled-back": "on-rolled-back", "degraded": "on-degraded"}
# How long such a program may run, how many may run at a time, and how long the last ones may take at the end of the service.
HOOK_SECONDS, MOST_HOOKS, HOOK_END_SECONDS = 30.0, 8, 2.0
# What the system says that has no process or descriptor left just now, and how long such a program waits for one at most.
NONE_LEFT, WAIT_SECONDS = (errno.EAGAIN, errno.ENOMEM, errno.EMFILE, errno.ENFILE), 600.0


class Hooks:
    """The programs of each event, and those that run."""

    def __init__(self, programs: dict[str, str]):
        self.programs = programs
        self.running: list[tuple[subprocess.Popen[bytes], str, float]] = []
        # What is still to be told, in its order: the event, its program, the text, and until when.
        self.waiting: collections.deque[tuple[str, str, bytes, float]] = collections.deque()

    def tell(self, event: str, told: dict[str, Any]) -> None:
        """Starts the program of an event, if it has one, as soon as the system has a process for it."""
        program = self.programs.get(event)
        if not program:
            return
        if len(self.running) + len(self.waiting) >= MOST_HOOKS:
            say(f"--{event} is not started: {MOST_HOOKS} such programs run still")
            return
        text = json.dumps({"event": event, **told}).encode() + b"\n"
        self.waiting.append((event, program, text, time.monotonic() + WAIT_SECONDS))
        if len(self.waiting) == 1 and (fault := self.begin()):
            say(f"--{event}: {program}: {fault.strerror}; it is tried again")

    def begin(self) -> OSError | None:
        """Starts those that wait, up to one for which the system has nothing left: what it says then."""
        while self.waiting:
            event, program, text, until = self.waiting[0]
            try:
                self.watch(begun([program, event], text), f"--{event}", HOOK_SECONDS)
            except OSError as fault:
                if fault.errno in NONE_LEFT and time.monotonic() < until:
                    return fault
                say(f"--{event}: {program}: {fault.strerror}")
            self.waiting.popleft()
        return None

    def watch(self, process: subprocess.Popen[bytes], title: str, seconds: float) -> None:
        """A program that may run for some seconds."""
        self.running.append((process, title, time.monotonic() + seconds))

    def tend(self) -> None:
        """Buries those that have ended, kills those that take too long, and starts those that wait."""
        left = []
        for process, title, until in self.running:
            status = process.poll()
            if status is None and time.monotonic() < until:
                left.append((process, title, until))
            elif status is None:
                say(f"{title}: {program_of(process)} has not ended in time, and is killed")
                kill(process)
            elif status:
                say(f"{title}: {program_of(process)} has ended with status {status}")
        self.running = left
        self.begin()

    def end(self) -> None:
        """The last ones may take a moment."""
        until = time.monotonic() + HOOK_END_SECONDS
        for process, _, _ in self.running:
            try:
                process.wait(max(0.0, until - time.monotonic()))
            except subprocess.TimeoutExpired:
                kill(process)


def begun(command: list[str], text: bytes) -> subprocess.Popen[bytes]:
    """A program with a text on its standard input. Raises OSError."""
    environment = {name: value for name, value in os.environ.items() if not name.startswith(OF_SYSTEMD)}
    file = os.memfd_create(command[1])
    try:
        os.write(file, text)
        os.lseek(file, 0, os.SEEK_SET)
        streams: dict[str, Any] = {"stdin": file, "stdout": subprocess.DEVNULL, "env": environment}
        return started(command, start_new_session=True, **streams)
    finally:
        os.close(file)


def program_of(process: subprocess.Popen[bytes]) -> str:
    """The program that a process was started as."""
    words = process.args
    return words if isinstance(words, str) else os.fsdecode(words[0]) if isinstance(words, list) else "the program"


def kill(process: subprocess.Popen[bytes]) -> None:
    """Kills a program with what it has started."""
    try:
        os.killpg(process.pid, signal.SIGKILL)
    except OSError:
        process.kill()
    process.wait()

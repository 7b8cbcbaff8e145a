"""Masters that run while they are looked at."""
import os
import pathlib
import re
import resource
import signal
import socket
import subprocess
import time
from collections.abc import Collection
from typing import Any, Self

from gate.configs import configuration
from gate.processes import Mark, numbers
from gate.waiting import Wrong, until
from masters.runs import MARK, SECONDS, Program, left_by

# What breaks off a look at a master: it waited for something in vain, or the master ended.
BREAKS = (Wrong, OSError, subprocess.TimeoutExpired)
# How a line of the log begins.
LOGGED = "[INFO  prefork] "
# The last line of a word's block.
ENDS = re.compile(r" pid \S+\n|^refused .*\n", re.M)


class Lasting:
    """A master that runs while it is looked at."""

    def __init__(
        self, program: Program, workers: int, room: str, descriptors: int, *options: str, given: Any = subprocess.PIPE,
        runs: str = "", **settings: Any,
    ):
        self.program, self.mark, self.room = program, Mark(MARK), pathlib.Path(room)
        # (the start has a block too)
        self.wanted = 1
        (self.room / "s.toml").write_text(configuration(workers=workers, retries=1, **settings))
        command = [program.path, "supervise", "--program", runs or program.path, "--from", "s.toml", *options]
        self.blocks, self.errors = open(self.room / "blocks", "wb"), open(self.room / "errors", "wb")
        self.process: Any = subprocess.Popen(
            command, cwd=room, stdin=given, stdout=self.blocks, stderr=self.errors, env=self.mark.environment(),
            preexec_fn=lambda: resource.setrlimit(resource.RLIMIT_NOFILE, (descriptors, descriptors)),
        )

    def __enter__(self) -> Self:
        return self

    def __exit__(self, *_: object) -> None:
        self.mark.kill()
        self.process.communicate()
        self.blocks.close()
        self.errors.close()

    def text(self) -> str:
        return (self.room / "blocks").read_text()

    def said(self) -> list[str]:
        """The lines on its standard error."""
        return (self.room / "errors").read_text().splitlines()

    def send(self, *words: str) -> None:
        """Tells words, and waits for nothing."""
        self.wanted += len(words)
        self.process.stdin.write("".join(f"{word}\n" for word in words).encode())
        self.process.stdin.flush()

    def told(self, *words: str) -> None:
        """Tells words, and waits for their blocks, and for that of the start."""
        self.send(*words)
        deadline = time.monotonic() + SECONDS
        while len(ENDS.findall(self.text())) < self.wanted and time.monotonic() < deadline:
            time.sleep(0.02)

    def ended(self, faults: Collection[str] = ()) -> list[str]:
        """What is wrong with the end of its input."""
        self.process.communicate(timeout=SECONDS)
        said = self.program.certified(["--from", "s.toml"], self.text().encode(), self.room)
        errors, left = [line for line in self.said() if not line.startswith(LOGGED)], left_by(self.mark)
        if errors != list(faults) or left or said.returncode:
            return [f"{errors} is said, {left} are left, and certify says {said.stderr!r}"]
        return []

    def below(self) -> list[int]:
        """The workers that it has started itself and that run."""
        found = [number for number, words in self.mark.processes().items() if words[1:2] == ["child"]]
        return [number for number in found if state_of(number)[0] != "Z" and state_of(number)[1] == self.process.pid]

    def zombies(self) -> int:
        return sum(is_zombie(number, self.process.pid) for number in numbers())


class Attending(Lasting):
    """A master that logs what it asks. Its input is a socket, of which a read fails where the other end is closed with
    a byte that nobody took."""

    def __init__(self, program: Program, workers: int, room: str):
        self.operator, heard = socket.socketpair()
        with heard:
            heard.send(b"x")
            super().__init__(program, workers, room, 1024, "--verbose", given=heard)

    def __exit__(self, *_: object) -> None:
        self.operator.close()
        super().__exit__()

    def tell(self, line: str) -> None:
        self.operator.sendall(f"{line}\n".encode())

    def asked(self, question: int) -> None:
        """Waits for a question."""
        line = f"{LOGGED}asks {question}: WINCH or QUIT goes on, HUP goes back"
        until(f"question {question}", lambda: line in self.said())

    def reaches(self, question: int) -> None:
        """Begins an attended upgrade, and lets it go on up to a question."""
        self.tell("USR2 attended")
        self.asked(1)
        if question == 2:
            self.tell("WINCH")
            self.asked(2)

    def fails(self) -> None:
        """Has a read of the input fail, once what was told is read."""
        self.operator.close()

    def ended(self, faults: Collection[str] = ()) -> list[str]:
        """What is wrong with the end of its input."""
        if not faults:
            self.operator.recv(1)
            self.operator.close()
        return super().ended(faults)

    def those(self, role: str) -> list[int]:
        """The processes of a role: `child` or `adopt`."""
        return [number for number, words in self.mark.processes().items() if words[1:2] == [role]]

    def kill_new_master(self) -> None:
        number = until("a new master", lambda: self.those("adopt"))[0]
        os.kill(number, signal.SIGKILL)
        until("the end of the new master", lambda: not self.those("adopt"))


def state_of(number: int) -> tuple[str, int]:
    """The state of a process and the number of its parent."""
    try:
        state = pathlib.Path(f"/proc/{number}/stat").read_text().rpartition(")")[2].split()
    except OSError:
        return "", 0
    return state[0], int(state[1])


def is_zombie(number: int, parent: int) -> bool:
    return state_of(number) == ("Z", parent)

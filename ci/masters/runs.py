"""How a master is run on a case: its words and files, and what is wanted of the run."""
import pathlib
import subprocess
import tempfile
from collections.abc import Collection
from typing import Any

from gate.cases import content, lines
from gate.processes import Mark
from gate.refusing import Refuser
from gate.tally import Tally

OWN = {"args", "stdin", "stdout", "stderr", "status", "patterns", "start"}
SECONDS = 120
MARK = "PREFORK_CHILDREN"


class Run:
    """The result of a run of the master."""

    def __init__(self, status: int | None, output: bytes, errors: bytes, left: Collection[int]):
        self.status, self.output, self.errors, self.left = status, output, errors, list(left)

    def __eq__(self, other: object) -> bool:
        if not isinstance(other, Run):
            return NotImplemented
        return (self.status, self.output, self.errors) == (other.status, other.output, other.errors)


class Program:
    """The program, and what refuses it memory, reads and writes."""

    def __init__(self, path: str, room: str):
        self.path, self.refuser = path, Refuser(room)

    def run(
        self, arguments: list[bytes], given: bytes, folder: str, more: dict[str, str] | None = None,
        kept: Collection[int] = (),
    ) -> Run:
        mark = Mark(MARK)
        named = [self.path.encode() if it == b"PROGRAM" else it for it in arguments]
        environment = mark.environment(**(more or {}))
        if more:
            # (a start of a child takes memory for each variable, and each growth of it is refused in turn)
            environment = {name: environment[name] for name in ("PATH", MARK, *more)}
        how: dict[str, Any] = {"cwd": folder, "timeout": SECONDS, "env": environment, "pass_fds": kept}
        try:
            ended = subprocess.run([self.path, *named], input=given, capture_output=True, **how)
        except subprocess.TimeoutExpired as late:
            mark.kill()
            return Run(None, late.stdout or b"", f"still running after {SECONDS} seconds".encode(), [])
        return Run(ended.returncode, ended.stdout, ended.stderr, left_by(mark))

    def refused(self, refuse: str, arguments: list[bytes], given: bytes, folder: str) -> tuple[Run, bool]:
        """A run with one refusal to the master, and whether that was met."""
        return self.refuser.refused(refuse, lambda more, kept: self.run(arguments, given, folder, more, kept))

    def certified(self, options: list[Any], output: bytes, folder: str | pathlib.Path) -> subprocess.CompletedProcess[bytes]:
        """What `certify` says of blocks of a master that started bare."""
        command = [self.path, "certify", "--bare", *options]
        return subprocess.run(command, input=output, cwd=folder, capture_output=True, timeout=SECONDS)


def left_by(mark: Mark) -> Collection[int]:
    """The processes of a run that have not ended a while after it; they are ended."""
    left = mark.left()
    if left:
        mark.kill()
    return left


class Case:
    """A start, words, and what is wanted of them."""

    def __init__(
        self, name: str, arguments: list[bytes], given: bytes, wanted: Run, start: list[bytes], patterns: bytes,
        files: dict[str, bytes],
    ):
        self.name, self.arguments, self.given, self.wanted = name, arguments, given, wanted
        self.start, self.patterns, self.files = start, patterns, files

    @staticmethod
    def at(folder: pathlib.Path) -> "Case":
        wanted = Run(int(content(folder / "status", b"0")), content(folder / "stdout"), content(folder / "stderr"), [])
        files = {file.name: file.read_bytes() for file in folder.iterdir() if file.name not in OWN}
        return Case(
            folder.name, lines(folder / "args"), content(folder / "stdin"), wanted, lines(folder / "start"),
            content(folder / "patterns"), files,
        )

    def lay_out(self, room: str) -> None:
        for name, text in self.files.items():
            (pathlib.Path(room) / name).write_bytes(text.replace(b"FOLDER", room.encode()))

    def wanted_in(self, room: str) -> Run:
        """What is wanted of a run in this folder."""
        wanted = self.wanted
        return Run(wanted.status, wanted.output.replace(b"FOLDER", room.encode()), wanted.errors, wanted.left)

    def beside(self, room: str) -> list[str]:
        """The files that a run left beside the case's own."""
        return sorted(file.name for file in pathlib.Path(room).iterdir() if file.name not in self.files)


def usual(program: Program, case: Case) -> Tally:
    """What a case does otherwise than it should."""
    found = []
    with tempfile.TemporaryDirectory() as room:
        case.lay_out(room)
        ended = program.run(case.arguments, case.given, room)
        for name in ("status", "output", "errors", "left"):
            got, wanted = getattr(ended, name), getattr(case.wanted_in(room), name)
            if got != wanted:
                found.append(f"{case.name}: {name} should be {wanted!r}, and is {got!r}")
        if case.beside(room):
            found.append(f"{case.name}: files are left: {case.beside(room)}")
        said = program.certified(case.start, ended.output, room)
        if (said.returncode, said.stdout, said.stderr) != (0, case.patterns, b""):
            found.append(f"{case.name}: certify gives {said.returncode}, {said.stdout!r}, {said.stderr!r}")
    return checked(found)


def checked(faults: list[str]) -> Tally:
    """One check, which passes where there are no faults."""
    tally = Tally()
    tally.check(faults)
    return tally

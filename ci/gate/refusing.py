"""What refuses a program memory, reads and writes: tests/faults/refuse.c, loaded before it."""
import dataclasses
import os
import pathlib
import select
import shutil
import struct
import subprocess
import sys
import tempfile
from collections.abc import Callable, Iterator
from typing import Any, TypeVar

from gate.tally import ROOT

Ended = TypeVar("Ended")
# What came of a run: its status and its two outputs.
Result = tuple[int, bytes, bytes]
# The numbers that refuse.c writes of a copy: its status, whether it had something refused, and the sizes of its two
# outputs.
ENDED = struct.Struct("=4q")
# What refuse.c reads: the place of an argument, from 1 on, and the size at which it ends; 0 where none is cut.
CUT = struct.Struct("=2q")


class Refuser:
    """The compiled library, in a folder."""

    def __init__(self, room: str | pathlib.Path):
        self.library = str(pathlib.Path(room) / "refuse.so")
        compiler = shutil.which("cc") or shutil.which("gcc") or shutil.which("clang")
        if not compiler:
            sys.exit("no C compiler, cc, for tests/faults/refuse.c")
        source = ROOT / "tests" / "faults" / "refuse.c"
        subprocess.run([compiler, "-O1", "-shared", "-fPIC", "-o", self.library, source], check=True)

    def refused(self, refuse: str, run: Callable[[dict[str, str], list[int]], Ended]) -> tuple[Ended, bool]:
        """A run with one refusal (`m3`: the third growth of memory), and whether that was met. `run` is given variables
        of the environment, and descriptors that the program inherits."""
        told, tell = os.pipe()
        try:
            ended = run({"LD_PRELOAD": self.library, "REFUSE": refuse, "REFUSE_TELL": str(tell)}, [tell])
            os.set_blocking(told, False)
            try:
                is_met = os.read(told, 1) == b"x"
            except BlockingIOError:
                is_met = False
        finally:
            os.close(told)
            os.close(tell)
        return ended, is_met


@dataclasses.dataclass
class Start:
    """How a program is started: standard input is a file with what is given. A run has `seconds` to end."""

    command: list[Any]
    given: bytes
    folder: str
    seconds: float


class Copies:
    """Runs of a program that starts no process. The program is started once, and each run is a copy of that process,
    which takes less time than a start."""

    def __init__(self, refuser: Refuser, how: Start):
        self.library, self.how = refuser.library, how
        self.given = tempfile.TemporaryFile()
        self.given.write(how.given)
        self.given.flush()
        self.given.seek(0)
        self.told, self.their_told = os.pipe()
        # The program, once it is started.
        self.program: Any = None

    def start(self, variables: dict[str, str], *theirs: int) -> None:
        """Starts the program with variables for refuse.c, and with descriptors that it then has alone."""
        theirs = (*theirs, self.their_told)
        environment = {"LD_PRELOAD": self.library, **variables}
        # (in a session of its own it would not give way: the system weighs sessions, and niceness only within one)
        self.program = subprocess.Popen(
            self.how.command, stdin=self.given, cwd=self.how.folder, env=environment, pass_fds=theirs)
        for descriptor in theirs:
            os.close(descriptor)

    def __exit__(self, *_: Any) -> None:
        os.close(self.told)
        self.given.close()
        try:
            self.program.wait(self.how.seconds)
        except subprocess.TimeoutExpired:
            self.end()

    def end(self) -> None:
        self.program.kill()
        self.program.wait()

    def next(self) -> tuple[Result, bool]:
        """The next run that has ended, and whether it had something refused."""
        if not select.select([self.told], [], [], self.how.seconds)[0]:
            self.end()
            raise TimeoutError(f"{self.how.command}: a run had not ended after {self.how.seconds} seconds")
        status, is_refused, output, errors = ENDED.unpack(self.read(ENDED.size))
        return (status, self.read(output), self.read(errors)), bool(is_refused)

    def read(self, size: int) -> bytes:
        found = b""
        while len(found) < size:
            more = os.read(self.told, size - len(found))
            if not more:
                raise EOFError(f"{self.how.command}: the program has ended before its copies")
            found += more
        return found


class Refusals(Copies):
    """Runs in each of which one growth (`m`), read (`r`) or write (`w`) is refused: of the first ones (`all_of`) each, and
    after these one in a number (`one_in`). Each is a copy of the process at that moment. In the last run none is refused."""

    def __init__(self, refuser: Refuser, how: Start, kind: str, all_of: int, one_in: int):
        super().__init__(refuser, how)
        self.variables = {"REFUSE": kind, "REFUSE_AT": f"{self.their_told},{all_of},{one_in}"}

    def __enter__(self) -> Iterator[tuple[Result, bool]]:
        self.start(self.variables)
        return iter(self.next, None)


class Repeats(Copies):
    """Runs each from the beginning of the program: standard input may be another, and an argument may end early."""

    def __enter__(self) -> "Repeats":
        theirs, self.ask = os.pipe()
        self.start({"REFUSE_CUT": f"{theirs},{self.their_told}"}, theirs)
        return self

    def __exit__(self, *given: Any) -> None:
        os.close(self.ask)
        super().__exit__(*given)

    def give(self, given: bytes) -> None:
        """From now on this is standard input."""
        os.ftruncate(self.given.fileno(), 0)
        os.pwrite(self.given.fileno(), given, 0)

    def run(self, place: int = 0, size: int = 0) -> Result:
        """A run, with the argument of this place, from 1 on, ending at this size."""
        os.write(self.ask, CUT.pack(place, size))
        return self.next()[0]

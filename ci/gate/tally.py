"""What the scripts that try the program share: which program they try, and what they count."""
import dataclasses
import pathlib
import sys
from collections.abc import Iterable

ROOT = pathlib.Path(__file__).resolve().parent.parent.parent
PROGRAM = ROOT / "crates" / "prefork" / "out" / "prefork"
# The most lines that are printed of what is wrong.
MOST_LINES = 40
# How much of the first line of something wrong is printed again at the end.
MOST_BYTES, NEWLINE = 400, "\n"


def program_path(named: str | pathlib.Path | None = None) -> str:
    """The program to try: the named one, or else the proved one. Ends the script if that file is missing."""
    program = pathlib.Path(named or PROGRAM).resolve()
    if not program.is_file():
        sys.exit(f"{program}: no such program; ci/test proves and builds one")
    return str(program)


@dataclasses.dataclass
class Tally:
    """How many checks passed and failed, each counted once, and what is wrong with those that failed."""

    passed: int = 0
    failed: int = 0
    wrong: list[str] = dataclasses.field(default_factory=list)
    # Whether a request was lost: that no second run takes back.
    is_lost: bool = False

    def check_lost(self, faults: Iterable[str]) -> None:
        """Counts one check of requests, of which none may be lost."""
        failed = self.failed
        self.check(faults)
        self.is_lost |= self.failed > failed

    def check(self, faults: Iterable[str]) -> None:
        """Counts one check, which passes where there are no faults."""
        found = list(faults)
        self.passed += not found
        self.failed += bool(found)
        self.wrong += found

    def add(self, other: "Tally") -> None:
        """Counts the checks of another tally."""
        self.passed += other.passed
        self.failed += other.failed
        self.wrong += other.wrong
        self.is_lost |= other.is_lost

    def end(self) -> int:
        """Prints what is wrong and the counts, and gives the exit status: 1 if a check failed or no check was made. Where
        something wrong has many lines, the first line of each is printed again at the end."""
        told = self.wrong[:MOST_LINES]
        for line in told:
            print(line)
        if len(self.wrong) > MOST_LINES:
            print(f"and {len(self.wrong) - MOST_LINES} lines more")
        for line in told if any("\n" in line for line in told) else ():
            print(f"failed: {line.partition(NEWLINE)[0][:MOST_BYTES]}")
        print(f"{self.passed} passed, {self.failed} failed")
        return 1 if self.failed or not self.passed else 0


def total(tallies: Iterable[Tally]) -> Tally:
    """The checks of all these tallies together."""
    found = Tally()
    for tally in tallies:
        found.add(tally)
    return found

"""What masters print, as values: calls and reports of blocks, and lines of their log. No other module reads these texts, which
docs/formats/blocks.md has."""
import dataclasses
import functools
import re
from collections.abc import Iterable

# The plain answer of each call.
PLAIN = {
    "open": "opened", "close": "ok", "fork": "forked", "await-ready": "ready", "quit": "ok", "kill": "ok", "usr1": "ok",
    "census": "counted", "await-gone": "gone", "spawn-master": "spawned", "adopt": "adopted", "write-pid": "ok",
    "move-pid": "ok", "remove-pid": "ok", "alive": "alive", "leave": "ok", "term-master": "ok", "ask": "go",
}
OUTCOMES = ("done", "rolled-back", "degraded", "lost", "refused", "unread", "nothing")
# Those after which a new version runs, perhaps with fewer workers, and those after which the one before does.
RUNS, IS_BACK = (("done", ""), ("degraded", "target")), (("rolled-back", ""), ("degraded", "old"))
WORD = "word "
# After the answer comes what was counted or opened, or the reason that people are told.
CALL = re.compile(r"(\d+) (m\d+) ([a-z0-9-]+)(?: (.*?))? : ([a-z-]+)(?: ([^:]+)|: (.+))?")
ABOUT_WORKER = re.compile(r"(\d+\.\d+)(?: (\d+))?(?: .*)?")
REPORT = re.compile(r"([a-z-]+)(?: (old|target) ([\d,]+))?(?: cause (\d+|none) pid \S+)?(.*)")
BEAT = re.compile(r"beat (\d+) (\d+)")
# A line of the log, one in which the master asks, and one of a child that it has killed.
LOG = re.compile(r"\[[A-Z]+ +prefork\] (.*)")
QUESTION_LINE = re.compile(r"asks ([12]): .*")
KILLED = re.compile(r"killed (?:worker (\d+\.\d+) (\d+)|master \d+), process \d+: (.*)")
# What prefork-launch calls a new master.
NEW_MASTER = "adopt"


@dataclasses.dataclass(frozen=True)
class Call:
    """A call of a block: its number, the master that makes it, what it is about and how it was answered. `given` is what was
    counted or opened; `why` is the reason that was added for people."""

    text: str
    number: int
    master: str
    kind: str
    about: str
    answer: str
    given: str
    why: str

    @property
    def is_plain(self) -> bool:
        return PLAIN.get(self.kind) == self.answer

    @property
    def image(self) -> int:
        """The number of the master's image."""
        return int(self.master.removeprefix("m"))

    @property
    def generation(self) -> str:
        """That of the workers it is about; empty if it is about none."""
        found = ABOUT_WORKER.fullmatch(self.about)
        return found[1] if found else ""

    @property
    def worker(self) -> int | None:
        """The number of the worker that it is about."""
        found = ABOUT_WORKER.fullmatch(self.about)
        return int(found[2]) if found and found[2] else None

    @property
    def name(self) -> str:
        """The name of that worker, such as 1.2.0; empty if it is about none."""
        return "" if self.worker is None else f"{self.generation}.{self.worker}"

    def counted(self) -> list[int]:
        """The workers that a census has counted: `0-2,5` are four."""
        found: list[int] = []
        for part in self.given.split(",") if self.kind == "census" else ():
            first, _, last = part.partition("-")
            if first.isdigit():
                found += range(int(first), int(last or first) + 1)
        return found


@dataclasses.dataclass(frozen=True)
class Report:
    """How a word has ended. `lacks` is how many workers each group lacks; `code` is that of a refusal, with what it is
    about."""

    outcome: str
    side: str
    lacks: tuple[int, ...]
    cause: int | None
    code: str

    @property
    def runs(self) -> bool:
        """Whether what was asked for runs, perhaps with fewer workers."""
        return (self.outcome, self.side) in RUNS

    @property
    def is_of_file(self) -> bool:
        """Whether the configuration of a word was refused."""
        return self.outcome == "refused" and self.code.startswith(("C", "W4"))

    @property
    def is_back(self) -> bool:
        """Whether what was before runs again, perhaps with fewer workers."""
        return (self.outcome, self.side) in IS_BACK


@dataclasses.dataclass(frozen=True)
class Block:
    """What came of a word. A line that is no word has a block without one."""

    word: str
    calls: tuple[Call, ...]
    report: Report

    @property
    def cause(self) -> Call | None:
        """The call that the report names as its cause."""
        return next((call for call in self.calls if call.number == self.report.cause), None)


def call_in(line: str) -> Call | None:
    """The call of a line, if it has one."""
    found = CALL.fullmatch(line)
    return Call(line, int(found[1]), found[2], found[3], found[4] or "", found[5], found[6] or "", found[7] or "") if found else None


def calls_in(lines: Iterable[str]) -> tuple[Call, ...]:
    return tuple(filter(None, map(call_in, lines)))


def report_of(text: str) -> Report:
    """A report, or what the service itself says in place of one."""
    found = REPORT.fullmatch(text)
    if not found:
        return Report("", "", (), None, "")
    lacks = tuple(int(number) for number in (found[3] or "").split(",") if number)
    return Report(found[1], found[2] or "", lacks, int(found[4]) if found[4] and found[4] != "none" else None, found[5].strip())


@functools.lru_cache(maxsize=4)
def block_of(text: str) -> Block:
    """A whole block."""
    *lines, report = text.splitlines()
    word = lines[0].removeprefix(WORD) if lines and lines[0].startswith(WORD) else ""
    return Block(word, calls_in(lines), report_of(report))


def ends_block(line: str) -> bool:
    """Whether a line is the last one of its block."""
    return line.split(" ", 1)[0].rstrip() in OUTCOMES


def beat_of(word: str) -> tuple[int, int] | None:
    """The worker and the moment of a beat, if a word is one."""
    found = BEAT.fullmatch(word)
    return (int(found[1]), int(found[2])) if found else None


def logged(line: str) -> str | None:
    """What a line of a master's log says."""
    found = LOG.fullmatch(line)
    return found[1] if found else None


def question_in(text: str) -> int | None:
    """The question that a log says is asked."""
    found = QUESTION_LINE.fullmatch(text)
    return int(found[1]) if found else None


def killed_in(text: str) -> tuple[str, str] | None:
    """Whom a log says that the master has killed, by the name that reasons have, and why."""
    found = KILLED.fullmatch(text)
    if not found:
        return None
    return f"{found[1]}.{found[2]}" if found[1] else NEW_MASTER, f"killed by its master: {found[3]}"

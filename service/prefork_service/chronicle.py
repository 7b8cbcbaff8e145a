"""What a service remembers of its words: blocks, journal, how they ended, and what workers have noted."""
import collections
import pathlib
import time
from typing import Any

from .blocks import report_of
from .last_lines import LastLines
from .folder import Folder
from .journal import Journal, wall_clock
from .reasons import Reasons, failed_workers
from .records import MEGABYTE, Records, is_quiet
from .words import is_routine, is_tick

# The bytes that the blocks may take together.
MOST_RECORD_BYTES = 32 * MEGABYTE


class Chronicle:
    """The records of a service, its journal, and the reasons that no block has been explained by yet."""

    def __init__(self, folder: Folder, place: pathlib.Path, most: int = MOST_RECORD_BYTES):
        self.records = Records(place / "records", folder.blocks, most)
        self.journal, self.reasons = Journal(place / "journal"), Reasons(folder.reasons)
        self.errors = LastLines(folder.path / "errors")
        # How often each word ended how.
        self.counts: collections.Counter[tuple[str, str]] = collections.Counter()
        self.ticks: collections.Counter[str] = collections.Counter()
        self.began, self.moment = "", 0.0
        # Reasons that no block has been explained by yet.
        self.noted: dict[str, str] = {}
        # In which word the master has died that the next one follows; None if none has.
        self.died: str | None = None

    def begin_master(self, configuration: bytes, process: int) -> None:
        if self.died is not None:
            self.records.mark_death(self.died)
            self.died = None
        self.records.begin(configuration)
        self.journal.note(f"master {process} starts; its blocks are in {self.records.folder()}")

    def begin_word(self, word: str) -> None:
        self.began, self.moment = wall_clock(), time.monotonic()
        if not is_tick(word):
            self.journal.end_ticks()
            self.journal.note(f"{word} begins")

    def take_reasons(self, block: str) -> dict[str, str]:
        """Why workers have ended, as far as that is known now: what they have noted, or else the last line that they said."""
        self.noted |= self.reasons.take()
        silent = [name for name in failed_workers(block) if name not in self.noted]
        self.noted |= {name: lines[-1].strip() for name, lines in self.errors.of(silent).items()}
        return dict(self.noted)

    def end_word(self, word: str, block: str) -> dict[str, Any] | None:
        """Notes how a word has ended. What rests on it, and has to be explained: nothing, if that is a quiet tick."""
        report, is_late = block.splitlines()[-1], is_routine(word)
        is_short = is_late and is_quiet(block)
        if is_tick(word):
            self.ticks[report_of(report).outcome] += 1
        if not is_late:
            self.journal.note(f"{word}: {report}")
            self.counts[word, report_of(report).outcome] += 1
        elif is_short:
            self.journal.end_ticks()
        else:
            self.journal.note_tick(report)
        errors, noted = self.errors.of(failed_workers(block)), self.noted
        self.errors.forget_old()
        if is_short:
            return None
        self.noted = {}
        told = {"word": word, "began": self.began or wall_clock(), "seconds": time.monotonic() - self.moment, "block": block}
        return {**told, "noted": noted, "errors": errors, "is_noted": not is_late or not self.journal.repeats}

    def end_master(self, word: str) -> None:
        """The master has died, in the middle of this word, or between two. That is marked once the next one goes on."""
        self.died = word

    def cut_word(self, word: str, lines: list[str]) -> None:
        """The master has ended in the middle of a word, after these lines of its block."""
        told = f", after: {'; '.join(lines[1:])}" if len(lines) > 1 else ""
        self.journal.note(f"{word}: lost, the master has ended{told}")

    def refuse_word(self, word: str, report: str, reason: str) -> None:
        """A word that no master was told."""
        self.counts[word, report_of(report).outcome] += 1
        self.journal.note(f"{word}: {report}: {reason}")

    def counted(self) -> list[dict[str, Any]]:
        """How often each word ended how."""
        return [
            {"word": word, "outcome": outcome, "count": count} for (word, outcome), count in sorted(self.counts.items())
        ]

    def waiting(self) -> int:
        """How many texts could not be written yet."""
        return len(self.records.writer.waiting) + len(self.journal.writer.waiting)

    def tend(self) -> None:
        self.records.tend()
        self.journal.tend()

    def end(self) -> None:
        self.journal.note("the service ends")
        self.errors.end()
        self.records.end()
        self.journal.end()

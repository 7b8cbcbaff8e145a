"""A random start with a few words, carried out here and by the program, and what differs."""
import pathlib
import random
import subprocess
from collections import Counter
from typing import NamedTuple

from reader.altered import altered
from reader.chance import any_moments, any_start, any_turns, any_word
from reader.beside import KeepsBeside
from reader.claims import Claims, IsAccepted, KeepsPromise, is_short, run_of
from reader.master import sides_of
from reader.path import KeepsPathLaw
from reader.plans import plan_tree
from reader.texts import configuration_text, outcome_text, section_text, table_text
from reader.words import Heard, Run, graver, heard, status_of

SECONDS = 60
MOST_WORDS = 8
# One run in this number is altered, too.
ONE_IN = 4


def claims_of(run: Run) -> Claims:
    """What is claimed of a run: that it is an accepted one, which the program says by carrying it out; that its calls
    are a path of the plan and the report is theirs; the promise; and how long it is."""
    t, r, target, ran = run.table, run.record, run.target, run.ran
    tree, sides = plan_tree(r, target, run.turns), sides_of(r, target)
    return {
        "accepted": IsAccepted(t, r, target, run.pattern, ran),
        "path": KeepsPathLaw(tree, r.note, sides, ran.entries, run.report),
        **KeepsPromise(t, r, target, ran),
        **KeepsBeside(t, r, target, ran, lambda pattern: run_of(r, target, run.turns, pattern, t)),
        "length": is_short(r, target, ran),
    }


def graver_of(blocks: list[Heard]) -> int:
    """The status that the gravest block gives."""
    status = 0
    for block in blocks:
        status = graver(status, status_of(block))
    return status


def blocks_text(words: list[str], blocks: list[Heard]) -> str:
    return "".join(f"word {word}\n{block.text}" for word, block in zip(words, blocks))


class Enacted(NamedTuple):
    """Words that `enact` is to carry out, and what is to be written."""

    options: list[str]
    words: list[str]
    sections: list[str]
    text: str
    status: int

    def difference(self, program: str, folder: pathlib.Path, state: bool) -> str | None:
        """What the program does otherwise, if anything. With the state, the last table is part of the text."""
        ended = subprocess.run(
            [program, "enact", *self.options, *(["--state"] if state else []), *self.words],
            input="next\n".join(self.sections).encode(),
            cwd=folder,
            capture_output=True,
            timeout=SECONDS,
        )
        if ended.stderr:
            return f"told {ended.stderr.decode(errors='replace')!r}"
        return first_difference(self.text, ended.stdout.decode()) or (
            None if ended.returncode == self.status else f"status {ended.returncode}, and not {self.status}"
        )


class Trial:
    """One start and its words."""

    def __init__(self, dice: random.Random) -> None:
        self.start = any_start(dice)
        self.words: list[str] = []
        self.sections: list[str] = []
        self.blocks: list[Heard] = []
        standing = self.start.standing
        while standing.record is not None and len(self.words) < MOST_WORDS and (not self.words or dice.randrange(5)):
            word = any_word(dice)
            turns, moments = any_turns(dice, word), any_moments(dice, word, standing.record)
            block = heard(standing, word, self.start.next, turns, moments)
            self.words.append(word)
            self.sections.append(section_text(turns, moments))
            self.blocks.append(block)
            standing = block.then
        self.last, self.claims, self.altered, self.dice = standing.table, 0, 0, dice

    def runs(self) -> list[Run]:
        return [block.run for block in self.blocks if block.run is not None]

    def text(self) -> str:
        return blocks_text(self.words, self.blocks) + table_text(self.last)

    def difference(self, program: str, folder: pathlib.Path) -> str | None:
        """What the program does otherwise, if anything."""
        for path, settings in self.start.files.items():
            (folder / path).write_text(configuration_text(settings))
        here = Enacted(self.start.options, self.words, self.sections, self.text(), graver_of(self.blocks))
        return here.difference(program, folder, True)

    def faults(self, program: str, folder: pathlib.Path) -> list[str]:
        """What differs, and which claims are false."""
        found: list[str] = []
        for run in self.runs():
            claims = claims_of(run)
            self.claims += len(claims)
            found += [f"claim {claim} of {run.target}" for claim, holds in claims.items() if not holds]
            found += self.weak_claims(run)
        different = self.difference(program, folder)
        return found + ([different] if different else [])

    def weak_claims(self, run: Run) -> list[str]:
        """The claim that is so of an altered run, too."""
        it = altered(self.dice, run) if self.dice.randrange(ONE_IN) == 0 else None
        if it is None:
            return []
        self.altered += 1
        return [f"claim {it.claim} of {run.target} although {it.what}"] if claims_of(it.run)[it.claim] else []

    def told(self) -> str:
        """The case, so that it can be done by hand."""
        files = {path: configuration_text(settings) for path, settings in self.start.files.items()}
        return f"{self.start.options} {self.words} {files} {self.sections}"

    def counts(self) -> Counter[str]:
        kinds = Counter(
            f"{type(run.target).__name__} {outcome_text(run.report.outcome).split(' ')[0]}" for run in self.runs()
        )
        kinds["runs"] = len(self.runs())
        kinds["claims"], kinds["altered"] = self.claims, self.altered
        kinds["calls"] = sum(len(run.ran.entries) for run in self.runs())
        kinds["passed tables"] = sum(len(run.ran.passed) for run in self.runs())
        kinds["other words"] = len(self.blocks) - len(self.runs())
        kinds["starts"] = 1
        return kinds


def first_difference(own: str, other: str) -> str | None:
    """The first line that differs, with its number."""
    if own == other:
        return None
    ours, others = own.splitlines() + [""], other.splitlines() + [""]
    pairs = enumerate(zip(ours, others), 1)
    n, (here, there) = next((n, pair) for n, pair in pairs if pair[0] != pair[1])
    return f"line {n} is {there!r}, and here {here!r}"

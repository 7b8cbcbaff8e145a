"""What holds of a whole life, as `certify --life` tells it (life_account/specs and life_text/specs): read from what the
program prints of the blocks of a life, and computed here from the patterns that it gives."""
import pathlib
import re
import subprocess
from collections.abc import Iterable, Iterator
from typing import NamedTuple

from reader import names as name
from reader.addresses import Address
from reader.claims import ready_with
from reader.lives import is_open, missing_workers
from reader.plans import Turns
from reader.pieces import quiet
from reader.run import Moment, Ran
from reader.settings import Settings
from reader.table import Table, holds_of
from reader.texts import Moments
from reader.vocabulary import Fate, Generation, Turn
from reader.words import Heard, Standing, heard

SECONDS = 60
MARK = "life words "


class Least(NamedTuple):
    """The fewest ready workers, after which call of which word; the start is word 0."""

    ready: int
    word: int
    call: int

    def text(self) -> str:
        return f"{self.ready} at " + (f"word {self.word} after call {self.call}" if self.word else "start")


class Account:
    """What holds of the words so far."""

    def __init__(self, first: Standing) -> None:
        self.was_full, self.words = False, 0
        self.kept: dict[tuple[Address, int], Least | None] = {}
        self.shorts: list[list[int | None]] = []
        if first.record is not None:
            master = next(p for p in first.table.rows if p.number == first.record.pid)
            self.kept = {(h.address, h.socket): None for h in holds_of(master)}
            self.ends(first, 0)

    def looks(self, t: Table, call: int) -> None:
        for (a, socket), least in self.kept.items():
            ready = ready_with(a, t)
            if least is None or ready < least.ready:
                self.kept[a, socket] = Least(ready, self.words, call)

    def passes(self, ran: Ran) -> None:
        """The tables of a run, middle tables too: two for each call, and the last one."""
        for place, passed in enumerate(ran.passed):
            self.kept = {at: least for at, least in self.kept.items() if is_open(*at, passed.table)}
            if self.was_full:
                self.looks(passed.table, place // 2)

    def ends(self, then: Standing, call: int) -> None:
        assert then.record is not None
        missing = missing_workers(then.record)
        if missing:
            self.shorts.append([self.words, missing, None])
            return
        self.shorts = [[word, count, healed or self.words] for word, count, healed in self.shorts]
        self.looks(then.table, call)
        self.was_full = True

    def hears(self, block: Heard) -> None:
        self.words += 1
        if block.run is not None and block.then.record is not None:
            self.passes(block.run.ran)
            self.ends(block.then, len(block.run.ran.entries))

    def text(self) -> str:
        kept = [f"open throughout {a} least ready {least.text() if least else 'none'}" for (a, _), least in self.kept.items()]
        shorts = [
            f"short {f'word {word}' if word else 'start'} missing {missing} "
            + (f"healed word {healed}" if healed else "not healed")
            for word, missing, healed in self.shorts
        ]
        lines = [f"{MARK}{self.words}", *(kept or ["open throughout none"]), *(shorts or ["short none"])]
        return "".join(line + "\n" for line in lines)


# What `certify` printed


def name_in(text: str) -> name.Name:
    if text.startswith("m"):
        return name.Master(int(text[1:]))
    image, config, nr = map(int, text[1:].split("."))
    generation = Generation(image, config)
    return name.Worker(generation, nr) if text.startswith("w") else name.Draining(generation, nr)


def section_in(text: str) -> tuple[Turns, Moments]:
    """The turns and the pattern of a section."""
    turns: Turns = ()
    moments: Moments = {}
    for line in text.splitlines():
        first, what, *rest = line.split(" ")
        if first == "turns":
            turns = tuple(Turn(letter) for letter in what)
            continue
        at = moments.get(int(first), quiet)
        exits, fate = at.exits, at.fate
        if what == "exit":
            exits = (*exits, name_in(rest[0]))
        else:
            fate = Fate(rest[0])
        moments[int(first)] = Moment(exits, fate)
    return turns, moments


def told_by(program: str, folder: pathlib.Path, options: list[str], text: str) -> str:
    """What the program says of the life of blocks."""
    command = [program, "certify", "--life", *options]
    ended = subprocess.run(command, input=text.encode(), cwd=folder, capture_output=True, timeout=SECONDS)
    return (ended.stdout + ended.stderr).decode(errors="replace")


def blocks_again(standing: Standing, words: Iterable[str], blocks: Iterable[Heard], sections: str, s: Settings) -> Iterator[Heard]:
    """The blocks once more, each word in the section that explains it. A refused word changes nothing."""
    for word, block, section in zip(words, blocks, re.split(r"^next\n", sections, flags=re.M)):
        if block.text.startswith("refused "):
            yield Heard(block.text, None, standing)
            continue
        again = heard(standing, word, s, *section_in(section))
        yield again
        standing = again.then


def difference(program: str, folder: pathlib.Path, options: list[str], first: Standing, s: Settings, words: list[str],
               blocks: list[Heard]) -> str | None:
    """What the program says otherwise of a life, if anything."""
    given = "".join(f"word {word}\n{block.text}" for word, block in zip(words, blocks))
    told = told_by(program, folder, options, given)
    sections, mark, life = told.partition(MARK)
    if not mark:
        return f"certify --life tells {told!r}"
    account = Account(first)
    for block, again in zip(blocks, blocks_again(first, words, blocks, sections, s)):
        if again.text != block.text:
            return f"certify --life explains {block.text!r} by what results in {again.text!r}"
        account.hears(again)
    own = account.text()
    return None if mark + life == own else f"certify --life tells {mark + life!r}, and here {own!r}"

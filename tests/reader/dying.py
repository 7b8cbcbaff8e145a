"""Random starts whose masters die at each call of a word: counted here and by the program (`explore --deaths`), and what
differs (death_explorer/specs and exploration_text/specs/DeathsText.antt).

The program says what a start on the leftovers results in by a theorem. Here each start is carried out: somebody else's
process is lent the sockets, the word is carried out until the master exits, another one is started on what is left,
and one quiet tick follows."""
import pathlib
import random
import subprocess
from collections import Counter
from collections.abc import Iterator
from typing import NamedTuple

from reader import names as name
from reader.addresses import Address, Addresses
from reader.calls import after_exits
from reader.chance import any_start, any_turns, any_word
from reader.claims import heirs_of, run_of
from reader.deaths import AreAllKept, CanTakeOver, lent
from reader.master import Record, Target
from reader.numbers import Numbers
from reader.pieces import quiet
from reader.plans import Turns
from reader.run import Ran
from reader.settings import Settings
from reader.table import Table, Worker, has_address
from reader.texts import configuration_text, section_text
from reader.trial import SECONDS, first_difference
from reader.vocabulary import Generation, Leave, Stance
from reader.words import Standing, heard, target_of


class Left(NamedTuple):
    """A death: the call before which the master of the image exits, and the table that it leaves."""

    number: int
    image: int
    table: Table


def deaths_met(r: Record, target: Target, ran: Ran) -> Iterator[Left]:
    """The deaths at the calls of a run, of the masters that execute at each: at `leave` both do."""
    executing: Numbers = (r.generation.image,)
    heirs = heirs_of(r, target)
    for n, entry in enumerate(ran.entries, 1):
        leaves = isinstance(entry.call, Leave)
        before = ran.passed[2 * (n - 1)].table
        for image in (*executing, *heirs) if leaves else executing:
            yield Left(n, image, after_exits((name.Master(image),), before))
        executing = heirs if leaves else executing


def ready_at(a: Address, t: Table) -> int:
    workers = [p for p in t.rows if isinstance(p, Worker)]
    return sum(p.stance is Stance.Ready and has_address(a, p.holds) for p in workers)


def fewest_left(addresses: Addresses, t: Table) -> tuple[int, Address]:
    """The first of the addresses that has the fewest Ready workers."""
    return min(((ready_at(a, t), a) for a in addresses), key=lambda found: found[0])


def has_healed(s: Settings, g: Generation, first: Table, left: Table) -> bool:
    """A master that is started on what is left takes over, and one quiet tick heals."""
    return AreAllKept(s.listeners, left) and all(CanTakeOver(s, g, first, left).values())


class Demanded(NamedTuple):
    """What is demanded of the deaths."""

    forbids_degraded: bool
    requires_done: bool
    least: int | None

    def options(self) -> list[str]:
        forbid = ["--forbid", "degraded"] if self.forbids_degraded else []
        require = ["--require", "done"] if self.requires_done else []
        return [*forbid, *require, *([] if self.least is None else ["--least", str(self.least)])]

    def status(self, healed: int, deaths: int, least: int | None) -> int:
        few = self.least is not None and least is not None and least < self.least
        if few or (self.forbids_degraded and healed < deaths):
            return 4
        return 6 if (self.requires_done and healed == 0) or (self.least is not None and least is None) else 0


def any_demands(dice: random.Random) -> Demanded:
    return Demanded(dice.randrange(2) == 0, dice.randrange(2) == 0, dice.choice((None, 0, 1, 2)))


class Dying:
    """One start, a word, and all deaths in its run."""

    def __init__(self, dice: random.Random) -> None:
        self.start, self.word = any_start(dice), any_word(dice)
        self.turns = any_turns(dice, self.word)
        self.demands = any_demands(dice)
        self.generation = Generation(dice.randint(1, 9), dice.randint(1, 9))
        self.deaths: list[Left] = []
        self.text, self.status = self.answer(self.start.standing)

    def settings(self) -> Settings:
        return self.start.files["a.toml"]

    def answer(self, old: Standing) -> tuple[str, int]:
        """What is to be written, and the status."""
        assert old.record is not None
        target = None if self.word.startswith("beat ") else target_of(self.word, old.record, old.beats, self.start.next)
        if target is None or isinstance(target, str):
            text = heard(old, self.word, self.start.next, (), {}).text
            return text, int(text.startswith("refused "))
        return self.counted(old.record, target, self.turns)

    def counted(self, r: Record, target: Target, turns: Turns) -> tuple[str, int]:
        first = self.start.standing.table
        kept = lent(r, first)
        self.deaths = list(deaths_met(r, target, run_of(r, target, turns, lambda n: quiet, first)))
        beside = deaths_met(r, target, run_of(r, target, turns, lambda n: quiet, kept))
        pairs = list(zip(self.deaths, beside, strict=True))
        healed = [d for d, left in pairs if has_healed(self.settings(), self.generation, kept, left.table)]
        lost = [d for d in self.deaths if d not in healed]
        found = [(*fewest_left(self.settings().listeners, d.table), d) for d in self.deaths]
        least = min(found, key=lambda one: one[0], default=None)
        text = self.end_line("healed", healed) + "short 0\n" + self.end_line("closed", lost) + self.least_line(least)
        return text, self.demands.status(len(healed), len(self.deaths), None if least is None else least[0])

    def under(self, death: Left) -> str:
        lines = section_text(self.turns, {}).splitlines() + [f"{death.number} exit m{death.image}"]
        return f" under {', '.join(lines)}"

    def end_line(self, kind: str, deaths: list[Left]) -> str:
        return f"{kind} {len(deaths)}{self.under(deaths[0]) if deaths else ''}\n"

    def least_line(self, least: tuple[int, Address, Left] | None) -> str:
        if least is None:
            return "least ready none\n"
        ready, address, death = least
        return f"least ready {ready} at {address} after call {death.number - 1}{self.under(death)}\n"

    # As Trial

    def command(self) -> list[str]:
        turns = ["--turns", "".join(turn.value for turn in self.turns)] if self.turns else []
        return ["explore", "--deaths", *self.start.options, *turns, *self.demands.options(), self.word]

    def faults(self, program: str, folder: pathlib.Path) -> list[str]:
        """What the program does otherwise, if anything."""
        for path, settings in self.start.files.items():
            (folder / path).write_text(configuration_text(settings))
        ended = subprocess.run([program, *self.command()], cwd=folder, capture_output=True, timeout=SECONDS)
        if ended.stderr:
            return [f"told {ended.stderr.decode(errors='replace')!r}"]
        different = first_difference(self.text, ended.stdout.decode())
        if different is None and ended.returncode != self.status:
            different = f"status {ended.returncode}, and not {self.status}"
        return [] if different is None else [different]

    def told(self) -> str:
        """The case, so that it can be done by hand."""
        files = {path: configuration_text(settings) for path, settings in self.start.files.items()}
        return f"{self.command()} {files}"

    def counts(self) -> Counter[str]:
        return Counter({"runs": 1, "deaths": len(self.deaths), "other words": int(not self.deaths)})

"""Random lives: words one after another, deaths of masters and starts on what they leave, carried out here and by the
program, and what differs.

A stretch is what happens from one start to the next death. The program carries each out from a start of its own: a
master that takes kept sockets over makes the calls of one that starts bare. It has no keeper, so a stretch that opens
an address that is kept is not compared, nor one whose start the program does not have: of another generation, or with
a stale pid file."""
import pathlib
import random
from collections import Counter
from typing import NamedTuple

from reader import names as name
from reader.altered_lives import altered_life, altered_left
from reader.chance import Start, any_moments, any_start, any_turns, any_word
from reader.claims import Claims, refusal_of, run_of
from reader.deaths import (
    AreAllKept, CanTakeOver, IsLent, StaysKept, are_kept_still, kept_socket, lent, restarted, restarted_record,
)
from reader.lives import CLAIMS, Life, LifeKeeps, Stand, is_open
from reader.master import Record
from reader.numbers import Numbers, numbers_below
from reader.pieces import quiet
from reader.plans import Turns
from reader.run import Moment, Ran
from reader.settings import Settings
from reader.start import first_generation, first_note
from reader.table import Table, service
from reader.telling import difference
from reader.texts import Moments, configuration_text, section_text, table_text
from reader.trial import Enacted, blocks_text, graver_of
from reader.vocabulary import Generation, OpenAt
from reader.words import Heard, Standing, heard, lacks_generation, target_of

MOST_WORDS = 8
# In so many lives no socket is kept, and no master dies.
WITHOUT_KEEPER = 3
# One life in this number is altered, too.
ONE_IN = 2


class Stretch:
    """From a start on: its words with their sections, and the blocks."""

    def __init__(self, options: list[str], standing: Standing, can_compare: bool) -> None:
        self.options, self.can_compare = options, can_compare
        self.words: list[str] = []
        self.sections: list[str] = []
        self.blocks: list[Heard] = []
        self.stands = [Stand(standing.table, standing.record)]
        self.has_own_table = True

    def add(self, word: str, section: str, block: Heard) -> None:
        self.words.append(word)
        self.sections.append(section)
        self.blocks.append(block)
        if block.run is not None:
            self.stands.append(Stand(block.then.table, block.then.record))
            opened = [e.call.address for e in block.run.ran.entries if isinstance(e.call, OpenAt)]
            self.can_compare &= not any(kept_socket(a, block.run.table.rows) is not None for a in opened)

    def life(self) -> Life:
        return Life(tuple(self.stands), tuple(block.run for block in self.blocks if block.run is not None))

    def difference(self, program: str, folder: pathlib.Path) -> str | None:
        """What the program does otherwise, if anything. Its table has no keeper."""
        if not self.can_compare or not self.words:
            return None
        text = blocks_text(self.words, self.blocks) + (table_text(self.stands[-1].table) if self.has_own_table else "")
        here = Enacted(self.options, self.words, self.sections, text, graver_of(self.blocks))
        return here.difference(program, folder, self.has_own_table)


class Death(NamedTuple):
    """A master dies: the first table of the run, those that may be left, and what is started there."""

    first: Table
    left: tuple[Table, ...]
    settings: Settings
    generation: Generation


class Living:
    """One life, and what is claimed of it."""

    def __init__(self, dice: random.Random) -> None:
        self.dice, self.start = dice, any_start(dice)
        self.has_keeper = dice.randrange(WITHOUT_KEEPER) > 0
        self.deaths: list[Death] = []
        self.claims, self.altered, self.compared, self.unsaid = 0, 0, 0, ""
        standing = self.start.standing
        assert standing.record is not None
        self.stretches = [Stretch(self.start.options, standing, True)]
        if self.has_keeper:
            standing = self.lend(standing, standing.record)
        self.first = standing
        self.live(standing)

    def lend(self, standing: Standing, record: Record) -> Standing:
        """Somebody else's process is lent the master's sockets."""
        if not IsLent(standing.table, record):
            self.unsaid = "claim IsLent"
        table = lent(record, standing.table)
        stretch = self.stretches[-1]
        stretch.stands[-1], stretch.has_own_table = Stand(table, record), False
        return standing._replace(table=table)

    def live(self, standing: Standing) -> None:
        for _ in range(self.dice.randint(2, MOST_WORDS)):
            record = standing.record
            if record is None:
                return
            word = any_word(self.dice)
            if word in ("QUIT", "INT") and self.dice.randrange(3):
                word = "HUP"
            if self.has_keeper and self.dice.randrange(3) == 0:
                standing = self.dies(standing, record, word)
            else:
                standing = self.carries(standing, record, word, {})

    def carries(self, standing: Standing, record: Record, word: str, ends: Moments) -> Standing:
        """A word is carried out; at these moments somebody exits, too."""
        turns, moments = any_turns(self.dice, word), dict(any_moments(self.dice, word, record))
        return self.hears(standing, word, turns, {**moments, **ends})

    def hears(self, standing: Standing, word: str, turns: Turns, moments: Moments) -> Standing:
        block = heard(standing, word, self.start.next, turns, moments)
        self.stretches[-1].add(word, section_text(turns, moments), block)
        return block.then

    def dies(self, standing: Standing, record: Record, word: str) -> Standing:
        """The master of the record exits at some call of a word, perhaps with its successor, and one is started on
        what is left there; nobody dies where the word asks for nothing, or no settings have their sockets kept."""
        can = [path for path, s in self.start.files.items() if AreAllKept(s.listeners, standing.table)]
        target = None if word.startswith("beat ") else target_of(word, record, standing.beats, self.start.next)
        if target is None or isinstance(target, str) or lacks_generation(record, target) or not can:
            return self.carries(standing, record, word, {})
        turns, moments = any_turns(self.dice, word), dict(any_moments(self.dice, word, record))
        plain = run_of(record, target, turns, lambda n: moments.get(n, quiet), standing.table)
        place = self.dice.randint(1, max(1, len(plain.entries)))
        moments[place] = with_deaths(self.dice, moments.get(place, quiet), record)
        ran = run_of(record, target, turns, lambda n: moments.get(n, quiet), standing.table)
        self.hears(standing, word, turns, moments)
        refused = refusal_of(record, target, lambda n: moments.get(n, quiet), ran)
        return self.starts_anew(standing.table, ran, refused, self.dice.choice(can))

    def starts_anew(self, first: Table, ran: Ran, refused: int | None, path: str) -> Standing:
        """A master is started where the run has come to: the middle of the refused moment, or any other place."""
        dice, settings = self.dice, self.start.files[path]
        at = 2 * refused - 1 if refused is not None and dice.randrange(2) else dice.randrange(len(ran.passed))
        left = ran.passed[at].table
        generation = dice.choice((first_generation, Generation(dice.randint(1, 9), dice.randint(1, 9))))
        others = tuple(dice.choice(ran.passed).table for _ in range(2))
        self.deaths.append(Death(first, (left, *others), settings, generation))
        record = restarted_record(settings, generation, left)
        standing = Standing(restarted(settings, generation, left), record, {})
        can_compare = generation == first_generation and record.note is first_note(settings.pid)
        options = ["--from", path, "--bare", *start_options(self.start)]
        self.stretches.append(Stretch(options, standing, can_compare))
        self.stretches[-1].has_own_table = False
        return standing

    # What is claimed

    def overdue(self, r: Record) -> list[Numbers]:
        """Some lists of workers that may be overdue: none, and all, some, or numbers that nobody has among them."""
        some = tuple(k for k in r.ready if self.dice.randrange(2))
        any_numbers = tuple(k for k in numbers_below(8) if self.dice.randrange(2))
        return [(), self.dice.choice((r.ready, some, any_numbers))]

    def life_claims(self) -> list[tuple[str, Claims]]:
        claims = [(f"of stretch {n}", LifeKeeps(x.life(), self.overdue)) for n, x in enumerate(self.stretches)]
        claims += [
            (f"of death {n}", CanTakeOver(d.settings, d.generation, d.first, left))
            for n, d in enumerate(self.deaths)
            for left in d.left
        ]
        return claims + ([("of all", {"stays kept": self.stays_kept()})] if self.has_keeper else [])

    def whole(self) -> Life:
        """All stretches: the runs that a death cut off aside, whose tables are looked at by the claims of the death."""
        lives = [x.life() for x in self.stretches]
        return Life(tuple(s for x in lives for s in x.stands), tuple(run for x in lives for run in x.runs))

    def stays_kept(self) -> bool:
        """Each address that every service names and that is kept on the master's socket at first."""
        life, table = self.whole(), self.first.table
        kept = {a: kept_socket(a, table.rows) for a in service(table)}
        named = {a: k for a, k in kept.items() if all(s.record is None or a in service(s.table) for s in life.stands)}
        alive = Life(tuple(s for s in life.stands if s.record is not None), life.runs)
        return all(StaysKept(a, k, alive) for a, k in named.items() if k is not None and is_open(a, k, table))

    def weak_claims(self) -> list[str]:
        """The claims that are so of an altered life, too."""
        if self.dice.randrange(ONE_IN):
            return []
        it = altered_life(self.dice, self.dice.choice(self.stretches).life())
        found = []
        if it is not None:
            self.altered += 1
            if CLAIMS[it.claim](it.life, self.overdue):
                found.append(f"claim {it.claim} although {it.what}")
        if self.deaths:
            death = self.dice.choice(self.deaths)
            left = altered_left(self.dice, death.settings, death.left[0])
            self.altered += 1
            if are_kept_still(death.settings, death.first, left):
                found.append("claim kept although the keeper closed a socket")
        return found

    # As Trial

    def faults(self, program: str, folder: pathlib.Path) -> list[str]:
        """What differs, and which claims are false."""
        found = [self.unsaid] if self.unsaid else []
        for what, claims in self.life_claims():
            self.claims += len(claims)
            found += [f"claim {claim} {what}" for claim, holds in claims.items() if not holds]
        found += self.weak_claims()
        for path, settings in self.start.files.items():
            (folder / path).write_text(configuration_text(settings))
        for stretch in self.stretches:
            different = stretch.difference(program, folder)
            self.compared += stretch.can_compare and bool(stretch.words)
            found += [different] if different else []
        return found + self.untold(program, folder)

    def untold(self, program: str, folder: pathlib.Path) -> list[str]:
        """What `certify --life` says otherwise of a life without a keeper."""
        if self.has_keeper:
            return []
        stretch = self.stretches[0]
        different = difference(program, folder, stretch.options, self.start.standing, self.start.next, stretch.words, stretch.blocks)
        return [different] if different else []

    def told(self) -> str:
        """The case, so that it can be done by hand."""
        files = {path: configuration_text(settings) for path, settings in self.start.files.items()}
        return f"{files} {[(x.options, x.words, x.sections) for x in self.stretches]}"

    def counts(self) -> Counter[str]:
        lives = [x.life() for x in self.stretches]
        return Counter({
            "runs": 1,
            "tasks": sum(len(x.runs) for x in lives),
            "deaths": len(self.deaths),
            "passed tables": sum(len(run.ran.passed) for x in lives for run in x.runs),
            "words": sum(len(x.words) for x in self.stretches),
            "claims": self.claims,
            "altered": self.altered,
            "compared stretches": self.compared,
            "stretches": len(self.stretches),
        })


def start_options(start: Start) -> list[str]:
    """What a later start has too: the next configuration. (Without one the next is the one that it starts with.)"""
    return ["--to", next(path for path, s in start.files.items() if s == start.next)]


def with_deaths(dice: random.Random, moment: Moment, r: Record) -> Moment:
    """A moment at which the master of a record exits, too, and sometimes the next one with it."""
    image = r.generation.image
    masters = (name.Master(image), name.Master(image + 1)) if dice.randrange(3) == 0 else (name.Master(image),)
    return Moment((*moment.exits, *masters), moment.fate)

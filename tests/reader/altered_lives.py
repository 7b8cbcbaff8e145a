"""Lives that are altered so that a claim is false of them: a claim that is so of them too says too little."""
import random
from collections.abc import Callable, Iterator
from typing import NamedTuple

from reader.lives import IsAlwaysNamed, Life, Stand, missing_workers, owed_after
from reader.run import Progress
from reader.settings import Settings
from reader.table import Foreign, Master, Process, Table, service
from reader.words import Run

# what is added to the number of a socket that was opened anew
ANEW = 500


class AlteredLife(NamedTuple):
    """A life, what was done to it, and the claim that is false then."""

    what: str
    claim: str
    life: Life


def with_stand(life: Life, place: int, stand: Stand) -> Life:
    return life._replace(stands=(*life.stands[:place], stand, *life.stands[place + 1:]))


def forgotten_workers(life: Life) -> Iterator[AlteredLife]:
    """The record does not know of a ready worker."""
    for place, (table, record) in enumerate(life.stands):
        if record is not None and record.ready:
            less = with_stand(life, place, Stand(table, record._replace(ready=record.ready[1:])))
            yield AlteredLife("a record lacks a ready worker", "stays true", less)
            yield AlteredLife("a record lacks a ready worker", "healable", less)


def wanted_workers(life: Life) -> Iterator[AlteredLife]:
    """More workers are wanted than any target said."""
    place = len(life.stands) - 1
    table, record = life.stands[place]
    if record is not None:
        more = record._replace(wanted=record.wanted + 99)
        if place > 0:
            yield AlteredLife("more workers are wanted", "accounted", with_stand(life, place, Stand(table, more)))


def anew(a: str, t: Table) -> Table:
    """A table in which the address was closed and opened anew."""

    def row(p: Process) -> Process:
        if not isinstance(p, Master):
            return p
        holds = tuple(h._replace(socket=h.socket + ANEW) if h.address == a else h for h in p.holds)
        return Master(p.number, p.parent, p.image, p.live, holds)

    return t._replace(rows=tuple(map(row, t.rows)), next_socket=t.next_socket + ANEW)


def run_anew(a: str, run: Run) -> Run:
    def progress(p: Progress) -> Progress:
        return p._replace(table=anew(a, p.table))

    passed = tuple(map(progress, run.ran.passed))
    return run._replace(table=anew(a, run.table), ran=run.ran._replace(passed=passed, last=passed[-1]))


def reopened_addresses(life: Life) -> Iterator[AlteredLife]:
    """An address that each service names is closed and opened anew between two words."""
    named = [a for a in service(life.stands[0].table) if IsAlwaysNamed(a, life)]
    for place in range(1, len(life.stands)):
        for a in named:
            stands = (Stand(anew(a, s.table), s.record) for s in life.stands[place:])
            runs = (run_anew(a, run) for run in life.runs[place:])
            later = Life((*life.stands[:place], *stands), (*life.runs[:place], *runs))
            yield AlteredLife("an address was closed and opened anew between two words", "stays open", later)


def unpaid_workers(life: Life) -> Iterator[AlteredLife]:
    """A run fell short, and nothing failed or was lost in any run."""
    if life.stands[0].record is None or missing_workers(life.stands[0].record):
        return
    runs = tuple(blameless(run) for run in life.runs)
    owed = 0
    for stand, run in zip(life.stands[1:], runs):
        owed = owed_after(owed, run.record, run.target, run.report.outcome, run.ran.last)
        if stand.record is not None and missing_workers(stand.record) > owed:
            yield AlteredLife("workers are missing for nothing", "accounted", life._replace(runs=runs))
            return


def blameless(run: Run) -> Run:
    return run._replace(ran=run.ran._replace(last=run.ran.last._replace(faults=0, losses=0)))


WAYS: tuple[Callable[[Life], Iterator[AlteredLife]], ...] = (
    forgotten_workers, wanted_workers, reopened_addresses, unpaid_workers,
)


def altered_life(dice: random.Random, life: Life) -> AlteredLife | None:
    """The life with one alteration, where there is one."""
    for way in dice.sample(WAYS, len(WAYS)):
        found = list(way(life))
        if found:
            return dice.choice(found)
    return None


def altered_left(dice: random.Random, s: Settings, left: Table) -> Table:
    """A table in which the keepers have closed an address of the settings."""
    a = dice.choice(s.listeners)

    def row(p: Process) -> Process:
        return Foreign(p.number, tuple(h for h in p.holds if h.address != a)) if isinstance(p, Foreign) else p

    return left._replace(rows=tuple(map(row, left.rows)))

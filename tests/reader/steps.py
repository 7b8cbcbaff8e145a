"""The steps of a reload in numbers (Plans.antt)."""
from collections.abc import Callable
from functools import partial
from typing import NamedTuple

from reader.master import Record, addresses_of, layout_in, layout_of, served
from reader.numbers import Numbers, lacks, numbers_below
from reader.settings import Settings


class Step(NamedTuple):
    """A step of a reload but the last: the new workers that it starts, and the old ones that quit then; both upwards."""

    starts: Numbers
    quits: Numbers


class Rollout(NamedTuple):
    """The steps of a reload but the last; and of the last one the new workers that it starts, and the old ones that
    are left."""

    steps: tuple[Step, ...]
    last: Numbers
    left: Numbers


Enough = Callable[[Numbers], bool]


def staying(enough: Enough, left: Numbers, ks: Numbers) -> Numbers:
    """Of these old workers some quit, one after another in the order of the second list, as long as the others are
    enough. These stay."""
    for k in ks:
        rest = tuple(j for j in left if j != k)
        left = rest if enough(rest) else left
    return left


def rolled(
    enough: Callable[[Numbers, Numbers], bool], surge: int, started: Numbers, todo: Numbers, left: Numbers
) -> Rollout:
    """As long as more new workers are to be started than one step starts, a step starts so many, and then as many of
    the old ones that are left quit as may. (The definition has a number of tries, which is enough.)"""
    if not 0 < surge < len(todo):
        return Rollout((), todo, left)
    now = (*todo[:surge][::-1], *started)
    stay = staying(partial(enough, now), left, left[::-1])
    more = rolled(enough, surge, now, todo[surge:], stay)
    return more._replace(steps=(Step(todo[:surge], lacks(left, stay)), *more.steps))


def is_enough(r: Record, s: Settings, started: Numbers, left: Numbers) -> bool:
    """At each address these new and old workers are as many as were ready there or are wanted there, whichever is
    fewer."""
    old, new = layout_of(r), layout_in(s.groups, s.listeners)
    return all(
        min(served(old, r.ready, a), served(new, numbers_below(s.workers), a))
        <= served(old, left, a) + served(new, started, a)
        for a in addresses_of(r)
    )


def rollout_of(r: Record, s: Settings, surge: int) -> Rollout:
    """The steps, where each but the last starts so many."""
    return rolled(partial(is_enough, r, s), surge, (), numbers_below(s.workers), r.ready)

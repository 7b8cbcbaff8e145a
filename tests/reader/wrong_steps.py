"""Wrong reloads in steps, each with the claim that is to refuse a run of it. Some break the headline."""
from functools import partial

from reader import plans
from reader.addresses import Addresses
from reader.crews import Crew
from reader.master import Record, Reload, Target
from reader.numbers import Numbers
from reader.plans import Last, Turns, asks, awaits_gone, plan_tree, quits_new, settle, starts, starts_any, tells
from reader.run import Later, Tree
from reader.settings import Settings
from reader.steps import Enough, Step
from reader.vocabulary import Call, Kill, Quit, Side

RIGHT_LAST = plans.last_step
RIGHT_QUITS = plans.quits_new


def a_reload_in_steps(r: Record, target: Target, turns: Turns) -> Tree | None:
    """The plan of a reload of more than one step."""
    is_stepped = isinstance(target, Reload) and 0 < target.settings.surge < target.settings.workers
    return plan_tree(r, target, turns) if is_stepped else None


# A step is taken back


def taken_back_by_the_new_first(by: int, old: Crew, new: Crew, waits: bool, step: Step, back: Tree) -> Tree:
    """The new workers quit before the old ones are started again."""
    return quits_new(by, new, waits, step.starts, starts_any(by, old, step.quits, back), step.starts[::-1])


def taken_back_without_the_old(by: int, old: Crew, new: Crew, waits: bool, step: Step, back: Tree) -> Tree:
    """Nobody is started again."""
    return quits_new(by, new, waits, step.starts, back, step.starts[::-1])


def taken_back_beside_the_new(by: int, old: Crew, new: Crew, waits: bool, step: Step, back: Tree) -> Tree:
    """The new workers do not quit."""
    return starts_any(by, old, step.quits, back)


def taken_back_by_another_crew(by: int, old: Crew, new: Crew, waits: bool, step: Step, back: Tree) -> Tree:
    """The numbers of the old workers are started in the new generation."""
    quits = Later(lambda: quits_new(by, new, waits, step.starts, back, step.starts[::-1]))
    return starts_any(by, new, step.quits, quits)


# Who quits at a step


def nobody_stays(enough: Enough, left: Numbers, ks: Numbers) -> Numbers:
    return ()


def one_quits(enough: Enough, left: Numbers, ks: Numbers) -> Numbers:
    """The first quits, needed or not."""
    return tuple(k for k in left if k != ks[0]) if len(left) > 1 else left


def enough_over_all(r: Record, s: Settings, started: Numbers, left: Numbers) -> bool:
    """Workers are counted over all groups together."""
    return len(left) + len(started) >= min(len(r.ready), s.workers)


# A step, by what its old workers are told, and what undoes it


def steps_with(
    calls: type[Quit] | type[Kill], waits: bool, undoes: bool, early: bool,
    asked: bool, first: bool, by: int, old: Crew, new: Crew, steps: tuple[Step, ...], last: Last, back: Tree,
) -> Tree:
    """Old workers quit or are killed, are waited for or not, before the starts or after them; and earlier steps are
    taken back or not."""
    if not steps:
        return last(first, back)
    step = steps[0]
    quit_new = partial(quits_new, by, new, not first, step.starts, back)
    taken = Later(lambda: plans.taken_back(by, old, new, not first, step, back)) if undoes else back
    more = steps_with(calls, waits, undoes, early, asked, False, by, old, new, steps[1:], last, taken)
    told: tuple[Call, ...] = tuple(calls(old.generation, k) for k in step.quits[::-1])

    def leaving(rest: Tree) -> Tree:
        return tells(by, told, awaits_gone(by, old.generation, step.quits[::-1], rest) if waits else rest)

    if early:
        return leaving(starts(by, new, step.starts, more, quit_new))
    return starts(by, new, step.starts, asks(asked and first, by, 1, leaving(more), more), quit_new)


def last_that_leaves_the_old(
    asked: bool, by: int, old: Crew, new: Crew, numbers: Numbers, left: Numbers, retries: int, dropped: Addresses,
    n: int, first: bool, back: Tree,
) -> Tree:
    """The old workers that are left do not quit."""
    return RIGHT_LAST(asked, by, old, new, numbers, (), retries, dropped, n, first, back)


# The way back


def quits_nobody(by: int, new: Crew, waits: bool, numbers: Numbers, back: Tree, forked: Numbers) -> Tree:
    """The new workers of a step that failed go on."""
    return back


def quits_all_but_one(by: int, new: Crew, waits: bool, numbers: Numbers, back: Tree, forked: Numbers) -> Tree:
    return RIGHT_QUITS(by, new, waits, numbers, back, forked[1:])


def quits_and_goes_on(by: int, new: Crew, waits: bool, numbers: Numbers, back: Tree, forked: Numbers) -> Tree:
    """Nobody waits for them."""
    return RIGHT_QUITS(by, new, False, numbers, back, forked)


def closes_nothing(by: int, old: Crew, ready: Numbers, retries: int, opened: Addresses) -> Tree:
    """What was opened stays open."""
    return settle(by, old, ready, Side.Old, retries)

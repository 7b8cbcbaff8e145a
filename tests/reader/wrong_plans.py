"""Plans that nobody wants, each with the claim that is to refuse a run of it. Most of them keep the headline."""
import random
from collections.abc import Callable, Iterator
from contextlib import contextmanager
from functools import partial
from types import ModuleType
from typing import Any, NamedTuple

from reader import after, beside, claims, plans, steps, wrong_steps
from reader.addresses import Addresses, FilePath
from reader.beside import KeepsBeside
from reader.claims import IsAccepted, KeepsPromise
from reader.crews import Crew
from reader.master import (
    Attended, Record, Reload, Reopen, Stop, Target, Upgrade, Workers, addresses_of, crew_of, fork_of, handover_for,
)
from reader.numbers import Numbers
from reader.plans import (
    Turns, does, either, failed_replies, on, plan_tree, removes, retire, settle, stopped, tells,
)
from reader.run import Ends, Pattern, Ran, Tree, plain_reply, run_with, start_at
from reader.table import Table
from reader.trial import Trial
from reader.vocabulary import (
    Ask, AwaitGone, AwaitReady, Call, CloseAt, End, Generation, Kill, MovePid, OpenAt, PidNote, Quit, Reply, Report,
    Side, TermMaster, Usr1, WritePid,
)
from reader.words import Run

RIGHT_CALLS = plans.new_calls
RIGHT_QUESTION = plans.asks
RIGHT_RECORD = after.next_record
# somebody who is no master here
STRANGER = 77


class Piece(NamedTuple):
    """A definition of a module that is another one."""

    module: ModuleType
    name: str
    other: Callable[..., Any]


class WrongPlan(NamedTuple):
    """A wrong plan of some targets, the claim that refuses it, and the definitions that are others in it."""

    claim: str
    tree: Callable[[Record, Target, Turns], Tree | None]
    pieces: tuple[Piece, ...] = ()

    def is_of(self, r: Record, target: Target) -> bool:
        return self.tree(r, target, ()) is not None

    @contextmanager
    def planted(self) -> Iterator[None]:
        """While this lasts the pieces are others. (A tree is made as it is run, so they stay until its end.)"""
        saved = [getattr(piece.module, piece.name) for piece in self.pieces]
        try:
            for piece in self.pieces:
                setattr(piece.module, piece.name, piece.other)
            yield
        finally:
            for piece, old in zip(self.pieces, saved):
                setattr(piece.module, piece.name, old)

    def run(self, r: Record, target: Target, turns: Turns, pattern: Pattern, t: Table) -> Ran:
        tree = self.tree(r, target, turns)
        assert tree is not None
        return run_with(handover_for(r, target), tree, pattern, start_at(t, r.note))

    def refuses(self, run: Run) -> tuple[bool, bool] | None:
        """Whether the claim is false of such a run, and whether the headline holds; None if it is not accepted."""
        t, r, target = run.table, run.record, run.target

        def again(pattern: Pattern) -> Ran:
            return self.run(r, target, run.turns, pattern, t)

        with self.planted():
            ran = again(run.pattern)
            if not IsAccepted(t, r, target, run.pattern, ran):
                return None
            kept = KeepsPromise(t, r, target, ran)
            is_kept = kept[self.claim] if self.claim in kept else KeepsBeside(t, r, target, ran, again)[self.claim]
            return not is_kept, all(kept.values())


def tells_any(by: int, calls: tuple[Call, ...], rest: Tree) -> Tree:
    """Calls in their order, whatever is answered."""
    for call in calls[::-1]:
        rest = does(by, call, on((plain_reply(call), *failed_replies(call), Reply.MasterGone), rest))
    return rest


def workers_that_provoke(r: Record, target: Target, turns: Turns) -> Tree | None:
    """A change of the number of workers first starts one that runs, and goes back."""
    if not isinstance(target, Workers) or not r.ready:
        return None
    by, crew = r.generation.image, crew_of(r)
    back = settle(by, crew, r.ready, Side.Old, r.retries)
    return either(by, fork_of(crew, r.ready[0]), (), plan_tree(r, target, turns), back)


def a_reload_that_provokes(r: Record, target: Target, turns: Turns) -> Tree | None:
    """A reload first opens an address that the master holds itself, and goes back."""
    if not isinstance(target, Reload):
        return None
    by, crew = r.generation.image, crew_of(r)
    back = settle(by, crew, r.ready, Side.Old, r.retries)
    return either(by, OpenAt(addresses_of(r)[0]), (), plan_tree(r, target, turns), back)


def an_upgrade(r: Record, target: Target, turns: Turns) -> Tree | None:
    return plan_tree(r, target, turns) if isinstance(target, Upgrade | Attended) else None


def a_plain_upgrade(r: Record, target: Target, turns: Turns) -> Tree | None:
    return plan_tree(r, target, turns) if isinstance(target, Upgrade) else None


def calls_that_wait_for_nobody(crew: Crew, held: Addresses, wanted: Addresses, n: int) -> tuple[Call, ...]:
    """The new master waits for a worker that nobody started."""
    adopts, *others = RIGHT_CALLS(crew, held, wanted, n)
    return adopts, AwaitReady(crew.generation, 1000), *others


def relieved_by_the_heir(
    attended: bool, by: int, old: Crew, new: Crew, ready: Numbers, retries: int, path: FilePath | None, n: int
) -> Tree:
    """The new master tells the old one's workers to quit, who are cut off when the old one leaves."""
    quits = tuple(Quit(old.generation, k) for k in ready[::-1])
    waits = tuple(AwaitGone(old.generation, k) for k in ready[::-1])
    return tells_any(new.generation.image, quits + waits, retire(by, old, new, ready, retries, path, n))


def an_attended_upgrade(r: Record, target: Target, turns: Turns) -> Tree | None:
    return plan_tree(r, target, turns) if isinstance(target, Attended) else None


def asks_in_vain(attended: bool, by: int, question: int, on_go: Tree, on_back: Tree) -> Tree:
    """The operator is asked, and the upgrade goes on whatever is answered."""
    return either(by, Ask(question), (), on_go, on_go) if attended else on_go


def asks_in_vain_at_last(attended: bool, by: int, question: int, on_go: Tree, on_back: Tree) -> Tree:
    """The second answer is passed over."""
    return RIGHT_QUESTION(attended, by, question, on_go, on_go if question == 2 else on_back)


def asks_nobody(attended: bool, by: int, question: int, on_go: Tree, on_back: Tree) -> Tree:
    """The operator of an attended upgrade is not asked."""
    return on_go


def calls_without_a_handover(crew: Crew, held: Addresses, wanted: Addresses, n: int) -> tuple[Call, ...]:
    """The new master looks at nothing that it was told."""
    return RIGHT_CALLS(crew, held, wanted, n)[1:]


def ends_at_a_mark(r: Record, target: Target, turns: Turns) -> Tree | None:
    """A reopening ends where the two parts of an upgrade join, for which a report says that it is done."""
    if not isinstance(target, Reopen):
        return None
    told = tuple(Usr1(r.generation, k) for k in r.ready)
    return tells_any(r.generation.image, told, Ends(End.JoinReady))


def a_stop_that_ends_itself(r: Record, target: Target, turns: Turns) -> Tree | None:
    """A graceful stop by term-master of itself: nobody is told to quit."""
    if not isinstance(target, Stop) or target.quick:
        return None
    by = r.generation.image
    return removes(by, r.pid_path, r.note, tells(by, (TermMaster(by),), Ends(End.Done)))


def a_stop_by_a_stranger(r: Record, target: Target, turns: Turns) -> Tree | None:
    """A graceful stop whose quits and waits are made by a master that is not there."""
    if not isinstance(target, Stop) or target.quick:
        return None
    by, g = r.generation.image, r.generation
    calls: tuple[Call, ...] = (*(Quit(g, k) for k in r.ready), *(AwaitGone(g, k) for k in r.ready))
    return tells_any(STRANGER, calls, removes(by, r.pid_path, r.note, stopped(by)))


def a_reopening_by_a_stranger(r: Record, target: Target, turns: Turns) -> Tree | None:
    """The workers are told to reopen their logs by a master that is not there."""
    if not isinstance(target, Reopen):
        return None
    told = tuple(Usr1(r.generation, k) for k in r.ready)
    return tells_any(STRANGER, told, settle(r.generation.image, crew_of(r), r.ready, Side.Target, r.retries))


def before_all(r: Record, target: Target, turns: Turns, calls: tuple[Call, ...]) -> Tree:
    return tells_any(r.generation.image, calls, plan_tree(r, target, turns))


def another_file_first(r: Record, target: Target, turns: Turns) -> Tree | None:
    """A file of somebody else's is written first."""
    return before_all(r, target, turns, (WritePid("/etc/passwd"), MovePid("/run/b.pid", "/run/x")))


def another_address_first(r: Record, target: Target, turns: Turns) -> Tree | None:
    """An address that nobody named is opened first, and closed."""
    return before_all(r, target, turns, (OpenAt("9.9.9.9:99"), CloseAt("9.9.9.9:99")))


def older_workers_first(r: Record, target: Target, turns: Turns) -> Tree | None:
    """Workers of earlier generations, who finish their requests, are killed first."""
    g = r.generation
    earlier = [Generation(g.image, config) for config in range(max(1, g.config - 3), g.config)]
    calls = tuple(Kill(h, k) for h in earlier for k in range(7))
    return before_all(r, target, turns, calls) if calls else None


def planted(name: str, other: Callable[..., Any]) -> tuple[Piece, ...]:
    """A piece of plans is another one."""
    return (Piece(plans, name, other),)


def in_steps_with(calls: type[Quit] | type[Kill], waits: bool, undoes: bool, early: bool) -> tuple[Piece, ...]:
    """The steps of a reload are others."""
    return planted("in_steps", partial(wrong_steps.steps_with, calls, waits, undoes, early))


def stepped(claim: str, pieces: tuple[Piece, ...]) -> "WrongPlan":
    return WrongPlan(claim, wrong_steps.a_reload_in_steps, pieces)


# Records that are left


def left_otherwise(change: Callable[[Record, Record], Record]) -> tuple[Piece, ...]:
    """The next record is changed, given the one before it too."""

    def next_record(r: Record, target: Target, report: Report, last: Table) -> Record | None:
        left = RIGHT_RECORD(r, target, report, last)
        return None if left is None else change(r, left)

    return (Piece(beside, "next_record", next_record), Piece(claims, "next_record", next_record))


def forgets_the_pid_file(r: Record, left: Record) -> Record:
    return left._replace(pid_path=None, note=PidNote.NoFile)


def keeps_the_wanted_number(r: Record, left: Record) -> Record:
    """The old wanted number, or the least that has room for the ready ones."""
    return left._replace(wanted=max(r.wanted, left.ready[-1] + 1 if left.ready else 0))


WRONG_PLANS: dict[str, WrongPlan] = {
    "workers_that_provoke": WrongPlan("quiet", workers_that_provoke),
    "a_reload_that_provokes": WrongPlan("quiet", a_reload_that_provokes),
    "an_upgrade_that_waits": WrongPlan("quiet", an_upgrade, planted("new_calls", calls_that_wait_for_nobody)),
    "an_upgrade_whose_heir_quits": WrongPlan("peace", a_plain_upgrade, planted("relieve", relieved_by_the_heir)),
    "an_upgrade_that_goes_on": WrongPlan("obeyed", an_attended_upgrade, planted("asks", asks_in_vain)),
    "an_upgrade_that_goes_on_at_last": WrongPlan("obeyed", an_attended_upgrade, planted("asks", asks_in_vain_at_last)),
    "an_upgrade_that_never_asks": WrongPlan("asked", an_attended_upgrade, planted("asks", asks_nobody)),
    "an_upgrade_that_never_adopts": WrongPlan("adopts", an_upgrade, planted("new_calls", calls_without_a_handover)),
    "a_reopening_that_ends_at_a_mark": WrongPlan("ends", ends_at_a_mark),
    "a_stop_that_ends_itself": WrongPlan("peace", a_stop_that_ends_itself),
    "a_stop_by_a_stranger": WrongPlan("peace", a_stop_by_a_stranger),
    "a_reopening_by_a_stranger": WrongPlan("proper", a_reopening_by_a_stranger),
    "another_file_first": WrongPlan("files", another_file_first),
    "another_address_first": WrongPlan("proper", another_address_first),
    "older_workers_first": WrongPlan("proper", older_workers_first),
    "steps_that_quit_first": stepped("floor", in_steps_with(Quit, True, True, True)),
    "steps_that_kill": stepped("manner", in_steps_with(Kill, False, True, False)),
    "steps_that_wait_for_nobody": stepped("ceiling", in_steps_with(Quit, False, True, False)),
    "steps_that_are_not_taken_back": stepped("says", in_steps_with(Quit, True, False, False)),
    "a_step_that_lets_all_go": stepped("floor", (Piece(steps, "staying", wrong_steps.nobody_stays),)),
    "a_step_that_lets_one_go": stepped("floor", (Piece(steps, "staying", wrong_steps.one_quits),)),
    "steps_that_count_all_groups": stepped("floor", (Piece(steps, "is_enough", wrong_steps.enough_over_all),)),
    "a_step_back_by_the_new_first": stepped("floor", planted("taken_back", wrong_steps.taken_back_by_the_new_first)),
    "a_step_back_without_the_old": stepped("paid", planted("taken_back", wrong_steps.taken_back_without_the_old)),
    "a_step_back_beside_the_new": stepped("says", planted("taken_back", wrong_steps.taken_back_beside_the_new)),
    "a_step_back_by_another_crew": stepped("says", planted("taken_back", wrong_steps.taken_back_by_another_crew)),
    "a_last_step_that_leaves_the_old": stepped("says", planted("last_step", wrong_steps.last_that_leaves_the_old)),
    "a_step_back_that_quits_nobody": stepped("says", planted("quits_new", wrong_steps.quits_nobody)),
    "a_step_back_that_quits_all_but_one": stepped("says", planted("quits_new", wrong_steps.quits_all_but_one)),
    "a_step_back_that_waits_for_nobody": stepped("ceiling", planted("quits_new", wrong_steps.quits_and_goes_on)),
    "a_step_back_that_closes_nothing": stepped("says", planted("closes_opened", wrong_steps.closes_nothing)),
    "a_record_that_wants_all": WrongPlan("left", plan_tree, left_otherwise(lambda r, left: left._replace(wanted=1024))),
    "a_record_that_wants_as_before": WrongPlan("left", plan_tree, left_otherwise(keeps_the_wanted_number)),
    "a_record_without_retries": WrongPlan("left", plan_tree, left_otherwise(lambda r, left: left._replace(retries=0))),
    "a_record_in_a_hurry": WrongPlan("left", plan_tree, left_otherwise(lambda r, left: left._replace(timeout=1))),
    "a_record_without_its_file": WrongPlan("left", plan_tree, left_otherwise(forgets_the_pid_file)),
}


class Found(NamedTuple):
    """In how many accepted runs of a wrong plan its claim was false first, if it was, and how many of them keep the
    headline."""

    runs: int
    is_found: bool
    keep_the_headline: int


def look_for(name: str, dice: random.Random, most: int) -> Found:
    """Runs a wrong plan from random starts until its claim is false of one, or this number of runs was accepted."""
    plan, runs, kept = WRONG_PLANS[name], 0, 0
    while runs < most:
        for run in Trial(dice).runs():
            looked = plan.refuses(run) if plan.is_of(run.record, run.target) else None
            if looked is None:
                continue
            runs, kept = runs + 1, kept + looked[1]
            if looked[0]:
                return Found(runs, True, kept)
    return Found(runs, False, kept)

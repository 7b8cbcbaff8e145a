"""The paths of a plan's tree, and the report of one (plan_walk/specs/Path.antt; `follow` is in
rollback_plan/specs/Following.antt)."""
from typing import NamedTuple

from reader.master import Sides
from reader.numbers import Numbers
from reader.pieces import branch, first_cause, lacked_last, went_wrong
from reader.run import (
    Branch, Does, Ends, Tree, call_of, lacked_after, lacked_by, outcome_of, ready_after, reply_of, shown,
)
from reader.vocabulary import Answer, AnyAnswer, AnyOutcome, Entries, Entry, Lacks, Outcome, PidNote, Report


class Trail(NamedTuple):
    """How far a path has come: the rest of the tree, or nothing where the last answer had no edge; the last count, and
    what the last counts lacked; the note; the first call that went wrong, counted from 1; and how many calls were
    made."""

    rest: Tree | None
    ready: Numbers
    lacked: Lacks
    note: PidNote
    cause: int | None
    made: int


def begin(tree: Tree, note: PidNote) -> Trail:
    return Trail(tree, (), (), note, None, 0)


# One entry


def next_step(rest: Tree | None) -> Does | None:
    """The step that is next, where one is."""
    at = None if rest is None else shown(rest)
    return at if isinstance(at, Does) else None


def follow(step: Does | None, a: AnyAnswer) -> Branch | None:
    """What follows an answer: the note that is set, and the rest."""
    return None if step is None else branch(step.branches, reply_of(step.set, a))


def note_after(edge: Branch | None, note: PidNote) -> PidNote:
    return note if edge is None or edge.said is None else edge.said


def advance(t: Trail, e: Entry) -> Trail:
    step = next_step(t.rest)
    numbers = () if step is None else step.set
    edge = follow(step, e.answer)
    return Trail(
        rest=None if edge is None else edge.rest,
        ready=ready_after(e.answer, t.ready),
        lacked=lacked_after(e.by, numbers, e.answer, t.lacked),
        note=note_after(edge, t.note),
        cause=first_cause(t.cause, went_wrong(e.call, reply_of(numbers, e.answer)), t.made + 1),
        made=t.made + 1,
    )


# Paths


def Asks(rest: Tree | None, lacked: Lacks, e: Entry) -> bool:
    """The entry is a call of the step that is next, by its master, with the worker that it names."""
    step = next_step(rest)
    return step is not None and e.by == step.by and e.call == call_of(step.order, lacked_by(step.by, lacked))


# Reports


def IsOutcome(sides: Sides, rest: Tree | None, lacking: Numbers, o: AnyOutcome) -> bool:
    """The end that the path is at, or Lost where the last answer had no edge."""
    if rest is None:
        return o is Outcome.Lost
    at = shown(rest)
    return isinstance(at, Ends) and o == outcome_of(sides, at.end, lacking)


def Reports(sides: Sides, t: Trail, report: Report) -> bool:
    return (
        IsOutcome(sides, t.rest, lacked_last(t.lacked), report.outcome)
        and report.cause == t.cause
        and report.note is t.note
        and report.ready == t.ready
    )


def KeepsPathLaw(tree: Tree, note: PidNote, sides: Sides, entries: Entries, report: Report) -> bool:
    """The entries are a whole path of the tree, or a path and one entry after it where a master is gone and the step
    has no edge for that, and the report is theirs."""
    t = begin(tree, note)
    for e in entries:
        if not Asks(t.rest, t.lacked, e):
            return False
        t = advance(t, e)
    is_gone = bool(entries) and entries[-1].answer is Answer.MasterGone
    return Reports(sides, t, report) and (report.outcome is not Outcome.Lost or is_gone)

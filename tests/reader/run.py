"""Plans as trees, and the run of a tree on a table under a pattern (Run.antt).

A tree may be given as what makes it (Later): so only what a run meets of a plan's ways back and of its woven parts is
ever made. The branches of a step are the tuple of its edges. An Order is a plain type of the vocabulary; it is here,
since crews.py, which it needs, needs vocabulary.py."""
from collections.abc import Callable
from dataclasses import dataclass
from typing import NamedTuple

from reader.calls import Handed, Stepped, after_exits, losses_of, step_with
from reader.crews import Crew, shortfalls_of
from reader.master import Sides, fork_of
from reader.names import Name
from reader.numbers import Numbers, lacks
from reader.table import Table
from reader.vocabulary import (
    Adopt, Alive, Answer, AnyAnswer, AnyOutcome, Ask, AwaitGone, AwaitReady, Call, Census, Counted, Degraded, End,
    Entries, Entry, Fate, Fork, Generation, Kill, Lack, Lacks, OpenAt, Opened, Outcome, PidNote, Reply, Report, Side,
    SpawnMaster,
)


@dataclass(frozen=True, slots=True)
class Make:
    call: Call


@dataclass(frozen=True, slots=True)
class ForkLacking:
    crew: Crew


@dataclass(frozen=True, slots=True)
class AwaitLacking:
    generation: Generation


@dataclass(frozen=True, slots=True)
class KillLacking:
    generation: Generation


Order = Make | ForkLacking | AwaitLacking | KillLacking

# Plans: steps, what follows each reply, ends


@dataclass(frozen=True, slots=True)
class Ends:
    end: End


@dataclass(frozen=True, slots=True)
class Does:
    """The master that makes the step, by its image, what it asks for, the set that a census of it must contain, and
    what follows each reply."""

    by: int
    order: Order
    set: Numbers
    branches: "Branches"


@dataclass(frozen=True, slots=True)
class Later:
    make: Callable[[], "Tree"]


Tree = Ends | Does | Later


class Branch(NamedTuple):
    replies: tuple[Reply, ...]
    said: PidNote | None
    rest: Tree


Branches = tuple[Branch, ...]


def shown(tree: Tree) -> Ends | Does:
    """An end or a step."""
    while isinstance(tree, Later):
        tree = tree.make()
    return tree


# what an answer without a value is told apart as: the reply of the same name
NAMED = {a: Reply[a.name] for a in Answer}

# the plain reply to a call, where it is another than Fine
PLAIN: dict[type, Reply] = {
    OpenAt: Reply.Opened,
    Fork: Reply.Forked,
    AwaitReady: Reply.IsReady,
    Census: Reply.Full,
    AwaitGone: Reply.Gone,
    SpawnMaster: Reply.Spawned,
    Adopt: Reply.Adopted,
    Alive: Reply.IsAlive,
    Ask: Reply.Go,
}


def same_reply(a: Reply, b: Reply) -> bool:
    return a is b


def reply_of(numbers: Numbers, a: AnyAnswer) -> Reply:
    """What a step whose census must contain the set tells apart of an answer: a count that lacks nothing of it is
    full."""
    if isinstance(a, Counted):
        return Reply.Short if lacks(numbers, a.numbers) else Reply.Full
    return Reply.Opened if isinstance(a, Opened) else NAMED[a]


def plain_reply(call: Call) -> Reply:
    """The plain reply to a call; of a census, a full one."""
    return PLAIN.get(type(call), Reply.Fine)


def call_of(order: Order, lacking: Numbers) -> Call:
    """The call that a step asks for. A settle's step names the lowest number that the last census lacked."""
    named = lacking[0] if lacking else 0
    match order:
        case Make(call):
            return call
        case ForkLacking(crew):
            return fork_of(crew, named)
        case AwaitLacking(g):
            return AwaitReady(g, named)
        case KillLacking(g):
            return Kill(g, named)


# Runs


class Moment(NamedTuple):
    """What happens at one call: the processes that exit before it, and how it is made to fail."""

    exits: tuple[Name, ...]
    fate: Fate | None


# A pattern gives each call, counted from 1, its moment.
Pattern = Callable[[int], Moment]

# What the answers tell


def ready_after(a: AnyAnswer, ready: Numbers) -> Numbers:
    return a.numbers if isinstance(a, Counted) else ready


def lacked_by(by: int, lacked: Lacks) -> Numbers:
    """What the last count of a master lacked."""
    return next((lack.numbers for lack in lacked if lack.by == by), ())


def newest_of_others(by: int, lacked: Lacks) -> Lacks:
    """The newest of another master."""
    return tuple(lack for lack in lacked if lack.by != by)[:1]


def lacked_after(by: int, numbers: Numbers, a: AnyAnswer, lacked: Lacks) -> Lacks:
    """What the last counts lack, after an answer to a master. A plan has two masters at most: their last counts are
    kept, the newest first."""
    return (Lack(by, lacks(numbers, a.numbers)), *newest_of_others(by, lacked)) if isinstance(a, Counted) else lacked


def is_fault(call: Call, a: AnyAnswer) -> bool:
    """Whether an answer counts as a fault: each one that is not plain, except a count and that the operator goes
    back."""
    if isinstance(a, Counted) or (isinstance(call, Ask) and a is Answer.Back):
        return False
    return not same_reply(reply_of((), a), plain_reply(call))


class Return(NamedTuple):
    """The operator went back at a question: which one, and how many faults the run had before it."""

    question: int
    faults: int


Returns = tuple[Return, ...]


def returns_after(call: Call, a: AnyAnswer, faults: int, returns: Returns) -> Returns:
    """The returns after one call more."""
    if isinstance(call, Ask) and a is Answer.Back:
        return (Return(call.question, faults), *returns)
    return returns


def faults_since(question: int, returns: Returns, faults: int) -> int:
    """The number of faults since the operator went back at a question; 0 where the operator did not."""
    return next((max(0, faults - b.faults) for b in returns if b.question == question), 0)


class Progress(NamedTuple):
    """How far a run has come: its table, the number of calls made, the last count, what the last counts lacked, the
    faults and losses so far, where the operator went back, the first call that went wrong, and the note."""

    table: Table
    calls: int
    ready: Numbers
    lacked: Lacks
    faults: int
    losses: int
    returns: Returns
    cause: int | None
    note: PidNote


def start_at(t: Table, note: PidNote) -> Progress:
    return Progress(t, 0, (), (), 0, 0, (), None, note)


def after_moment(es: tuple[Name, ...], p: Progress) -> Progress:
    """The middle of a moment, after its exits."""
    if not es:
        return p
    return p._replace(table=after_exits(es, p.table), losses=p.losses + losses_of(es, p.table))


def after_call(by: int, order: Order, numbers: Numbers, s: Stepped, p: Progress) -> Progress:
    call = call_of(order, lacked_by(by, p.lacked))
    went_wrong = not same_reply(reply_of(numbers, s.answer), plain_reply(call))
    return p._replace(
        table=s.table,
        calls=p.calls + 1,
        ready=ready_after(s.answer, p.ready),
        lacked=lacked_after(by, numbers, s.answer, p.lacked),
        faults=p.faults + 1 if is_fault(call, s.answer) else p.faults,
        returns=returns_after(call, s.answer, p.faults, p.returns),
        cause=p.calls + 1 if p.cause is None and went_wrong else p.cause,
    )


# How a run ends: at an end of the plan, or Lost (None) where a step has no edge for the answer.
Ending = End | None


class Ran(NamedTuple):
    """A whole run: its entries, each table that it passes with the counts up to it, middle tables too, and how it
    ends."""

    entries: Entries
    passed: tuple[Progress, ...]
    ending: Ending
    last: Progress


def run_with(handed: Handed, tree: Tree, pattern: Pattern, p: Progress) -> Ran:
    """The run of a tree. What a call is handed is the same throughout."""
    entries: list[Entry] = []
    passed: list[Progress] = []
    at = shown(tree)
    while isinstance(at, Does):
        moment = pattern(p.calls + 1)
        middle = after_moment(moment.exits, p)
        call = call_of(at.order, lacked_by(at.by, middle.lacked))
        s = step_with(handed, at.by, call, moment.fate, middle.table)
        entries.append(Entry(at.by, call, s.answer))
        passed += [p, middle]
        p = after_call(at.by, at.order, at.set, s, middle)
        edge = goes_with(at.branches, reply_of(at.set, s.answer))
        if edge is None:
            return Ran(tuple(entries), (*passed, p), None, p)
        p = p if edge.said is None else p._replace(note=edge.said)
        at = shown(edge.rest)
    return Ran(tuple(entries), (*passed, p), at.end, p)


def goes_with(branches: Branches, r: Reply) -> Branch | None:
    """The first of these edges that has the reply. `run_with` is a loop here, and follows this edge."""
    return next((edge for edge in branches if any(same_reply(x, r) for x in edge.replies)), None)


# What is reported: what the calls and their answers tell, and nothing else


def outcome_of(sides: Sides, ending: Ending, lacking: Numbers) -> AnyOutcome:
    """The outcome of a run that ends so, by the groups of its side and what the last census lacked."""
    match ending:
        case None:
            return Outcome.Lost
        case End.RolledBack:
            return Outcome.RolledBack
        case End.ShortOld:
            return Degraded(Side.Old, shortfalls_of(sides.old, lacking))
        case End.ShortTarget:
            return Degraded(Side.Target, shortfalls_of(sides.target, lacking))
        case _:
            # (no run ends at a mark)
            return Outcome.Done


def report_of(sides: Sides, ran: Ran) -> Report:
    """What the report of a run says, by the groups of both sides."""
    lacking = ran.last.lacked[0].numbers if ran.last.lacked else ()
    return Report(outcome_of(sides, ran.ending, lacking), ran.last.cause, ran.last.note, ran.last.ready)

"""Runs that are altered so that a claim is false of them: a claim that is so of them too says too little."""
import random
from collections.abc import Callable, Iterator
from typing import NamedTuple

from reader.beside import takes_ready
from reader.claims import IsCommon, least_of, owed_in
from reader.master import Attended, Mend, Reload, Reopen, Stop, Target, Workers, want
from reader.run import Progress, faults_since
from reader.table import (
    File, Master, Process, Table, Worker, bears, is_serving, number_of, same_stance, service,
)
from reader.vocabulary import Answer, Degraded, Entry, Generation, Kill, Outcome, PidNote, Quit, Stance
from reader.words import Run


class Altered(NamedTuple):
    """A run, what was done to it, and the claim that is false then."""

    what: str
    claim: str
    run: Run


def with_last(run: Run, last: Progress) -> Run:
    ran = run.ran._replace(last=last, passed=(*run.ran.passed[:-1], last))
    return run._replace(ran=ran)


def with_last_table(run: Run, table: Table) -> Run:
    return with_last(run, run.ran.last._replace(table=table))


def with_row(t: Table, old: Process, new: tuple[Process, ...]) -> Table:
    """A row that becomes these, one or none."""
    place = t.rows.index(old)
    return t._replace(rows=(*t.rows[:place], *new, *t.rows[place + 1:]))


def ready_rows(t: Table) -> list[Worker]:
    return [p for p in t.rows if isinstance(p, Worker) and same_stance(Stance.Ready, p.stance)]


def lost_workers(run: Run) -> Iterator[Altered]:
    """A Ready worker is not in the last table, or is of another generation."""
    t = run.ran.last.table
    for p in ready_rows(t):
        generation = Generation(p.generation.image, p.generation.config + 9)
        other = Worker(p.number, p.parent, generation, p.nr, p.stance, p.holds)
        yield Altered("a worker is gone", "says", with_last_table(run, with_row(t, p, ())))
        yield Altered("a worker is of another generation", "says", with_last_table(run, with_row(t, p, (other,))))


def other_sockets(run: Run) -> Iterator[Altered]:
    """A master holds an address of both services on another socket at the end."""
    t = run.ran.last.table
    old, wanted = service(run.table), want(run.record, run.target)
    kept = [a for a in old if IsCommon(old, wanted, a)]
    for p in t.rows:
        if isinstance(p, Master) and p.live and any(h.address in kept for h in p.holds):
            holds = tuple(h._replace(socket=h.socket + 99) if h.address in kept else h for h in p.holds)
            row = Master(p.number, p.parent, p.image, p.live, holds)
            yield Altered("a socket is another", "kept", with_last_table(run, with_row(t, p, (row,))))


def other_owners(run: Run) -> Iterator[Altered]:
    """The pid file has another number than its master's at the end."""
    last = run.ran.last
    if last.note is PidNote.InPlace and last.table.files:
        files = tuple(File(f.path, f.owner + 99) for f in last.table.files)
        yield Altered("the pid is another", "after", with_last_table(run, last.table._replace(files=files)))


def excuses_of(target: Target, p: Progress) -> int:
    """How many workers fewer than its floor a table may have for faults."""
    match target:
        case Attended():
            return faults_since(2, p.returns, p.faults)
        case Reload(s):
            return owed_in(s, p)
        case _:
            return 0


def low_floors(run: Run) -> Iterator[Altered]:
    """The workers that hold an address of both services are gone in a table on the way."""
    if isinstance(run.target, Mend | Stop):
        return
    passed, leasts = run.ran.passed, least_of(run.table, run.record, run.target)
    for place in range(0, len(passed) - 1, 5):
        p = passed[place]
        excused = p.losses + excuses_of(run.target, p)
        for least in leasts:
            if excused < least.workers:
                rows = tuple(row for row in p.table.rows if not is_serving(least.address, lambda g: True, row))
                low = p._replace(table=p.table._replace(rows=rows))
                ran = run.ran._replace(passed=(*passed[:place], low, *passed[place + 1:]))
                yield Altered("nobody is ready on the way", "floor", run._replace(ran=ran))


def other_processes(run: Run) -> Iterator[Altered]:
    """A worker that is to stay has another process at the end."""
    t, target = run.ran.last.table, run.target
    first = {p.number for p in ready_rows(run.table)}
    for p in ready_rows(t):
        stays = (
            isinstance(target, Reopen)
            or (isinstance(target, Workers) and p.nr < target.number)
            or (isinstance(target, Mend) and p.nr not in target.overdue)
        )
        if stays and p.number in first:
            other = Worker(p.number + 999, p.parent, p.generation, p.nr, p.stance, p.holds)
            yield Altered("a worker is another process", "manner", with_last_table(run, with_row(t, p, (other,))))


def early_kills(run: Run) -> Iterator[Altered]:
    """A worker is killed first of all."""
    r, ran = run.record, run.ran
    if isinstance(run.target, Mend) or (isinstance(run.target, Stop) and run.target.quick):
        return
    for k in r.ready[:1]:
        kill = Entry(r.generation.image, Kill(r.generation, k), Answer.Fine)
        first = ran.passed[0]
        killed = ran._replace(entries=(kill, *ran.entries), passed=(first, first, *ran.passed))
        yield Altered("a worker is killed first", "manner", run._replace(ran=killed))


def vanished_workers(run: Run) -> Iterator[Altered]:
    """A Ready worker is gone after a call that does not name it."""
    passed = run.ran.passed
    for place, e in enumerate(run.ran.entries):
        after = passed[2 * place + 2]
        for p in ready_rows(after.table):
            if p in passed[2 * place + 1].table.rows and not takes_ready(p.generation, p.nr, e.call):
                fewer = after._replace(table=with_row(after.table, p, ()))
                ran = run.ran._replace(passed=(*passed[:2 * place + 2], fewer, *passed[2 * place + 3:]))
                yield Altered("a worker vanished", "named", run._replace(ran=ran))
                return


def workers_cut_off(run: Run) -> Iterator[Altered]:
    """A worker that is told to quit is gone at once, and does not finish."""
    passed = run.ran.passed
    first = {p.number for p in ready_rows(run.table)}
    if isinstance(run.target, Mend) or (isinstance(run.target, Stop) and run.target.quick):
        return
    for place, e in enumerate(run.ran.entries):
        after = passed[2 * place + 2]
        call = e.call
        if not isinstance(call, Quit):
            continue
        ready = [p for p in ready_rows(passed[2 * place + 1].table) if p.number in first]
        for p in (p for p in ready if bears(p.generation, p.nr, call.generation, call.nr)):
            rows = tuple(row for row in after.table.rows if number_of(row) != p.number)
            cut = after._replace(table=after.table._replace(rows=rows))
            ran = run.ran._replace(passed=(*passed[:2 * place + 2], cut, *passed[2 * place + 3:]))
            yield Altered("a worker that is told to quit is gone at once", "peace", run._replace(ran=ran))


def other_accounts(run: Run) -> Iterator[Altered]:
    """The cause is not told, or nothing failed or was lost."""
    last, outcome = run.ran.last, run.report.outcome
    if last.cause is not None and outcome is not Outcome.Done:
        yield Altered("no cause is told", "cause", with_last(run, last._replace(cause=None)))
    if last.cause is not None:
        blameless = last._replace(faults=0, losses=0, returns=())
        yield Altered("nothing failed or was lost", "blamed", with_last(run, blameless))
    if last.faults:
        yield Altered("a fault is no cause", "blamed", with_last(run, last._replace(cause=None)))
    if isinstance(outcome, Degraded):
        yield Altered("a shortfall for nothing", "paid", with_last(run, last._replace(faults=0, losses=0)))


WAYS: tuple[Callable[[Run], Iterator[Altered]], ...] = (
    lost_workers, other_sockets, other_owners, low_floors, other_processes, early_kills, other_accounts,
    vanished_workers, workers_cut_off,
)


def altered(dice: random.Random, run: Run) -> Altered | None:
    """The run with one alteration, where there is one."""
    ways = dice.sample(WAYS, len(WAYS))
    for way in ways:
        found = list(way(run))
        if found:
            return dice.choice(found)
    return None

"""What the run of a plan keeps, and how it ends: the headline (Claims.antt).

A claim about all addresses, generations or processes is looked at for those that there are in the tables and in the
services: of any other both sides say the same. `refusal_of` and `IsAccepted` take the run, which the definitions
compute again. KeepsPromise says of each of its clauses whether it is so."""
from collections.abc import Callable
from functools import partial
from typing import NamedTuple

from reader import names as name
from reader.addresses import Address, FilePath, has
from reader.after import next_record
from reader.calls import is_active_worker
from reader.lengths import plan_length
from reader.master import (
    Agrees, Attended, IsRecord, Layout, Mend, Record, Reload, Reopen, Stop, Target, Upgrade, Workers, addresses_wanted,
    handover_for, has_next, layout_of, layout_wanted, numbers_wanted, oldbin, short_at, sides_of, upgrade_generation,
    want, wanted_at,
)
from reader.names import Name
from reader.numbers import IsRising, Numbers, RisesFrom, is_in
from reader.plans import Turns, plan_tree
from reader.run import Pattern, Progress, Ran, faults_since, report_of, run_with, start_at
from reader.settings import IsInRange, Settings
from reader.table import (
    Counts, IsFormed, IsSame, Master, Process, Service, Table, Worker, bears, is_live_where, is_own, is_serving,
    is_worker_where, number_of, owner_at, same_stance, service,
)
from reader.vocabulary import (
    Answer, AnyAnswer, AnyOutcome, AwaitGone, Call, Degraded, Entries, Entry, Generation, Kill, Leave, Outcome, PidNote,
    Quit, RemovePid, Report, Side, Stance, Usr1,
)

# Which processes a run leaves alone, and which it ends only after they were asked to end


def has_ready(t: Table, p: int, k: int) -> bool:
    """The process with the number is a Ready worker with the worker number."""
    is_ready = partial(same_stance, Stance.Ready)
    return any(is_worker_where(is_ready, lambda n: n == p, lambda g, j: j == k, row) for row in t.rows)


def is_lost(p: int, passed: tuple[Progress, ...]) -> bool:
    """A process is a loss where the exits of a moment end it while it is Starting or Ready. The tables of a run come
    in pairs, before and after the exits of a moment, and the last one."""

    def is_active_in(t: Table) -> bool:
        return any(is_active_worker(row) and number_of(row) == p for row in t.rows)

    pairs = zip(passed[::2], passed[1::2])
    return any(is_active_in(before.table) and not is_active_in(middle.table) for before, middle in pairs)


def ready_first(first: Table) -> list[tuple[int, int]]:
    """The process and worker numbers of those that are Ready: has_ready holds of no others."""
    workers = (row for row in first.rows if isinstance(row, Worker))
    return [(row.number, row.nr) for row in workers if same_stance(Stance.Ready, row.stance)]


def Stays(first: Table, stays: Callable[[int], bool], ran: Ran) -> bool:
    """Each process that is Ready at first, of these worker numbers, is Ready at the end or is a loss."""
    return all(
        has_ready(ran.last.table, p, k) or is_lost(p, ran.passed) for p, k in ready_first(first) if stays(k)
    )


def Goes(first: Table, goes: Callable[[int], bool], ran: Ran) -> bool:
    """No process that was Ready at first, of these worker numbers, is in the last table."""
    return not any(number_of(row) == p for p, k in ready_first(first) if goes(k) for row in ran.last.table.rows)


def is_quit(test: Callable[[Generation, int], bool], call: Call) -> bool:
    """A call to quit of a name that passes the test."""
    return isinstance(call, Quit) and test(call.generation, call.nr)


def is_wait(test: Callable[[Generation, int], bool], call: Call) -> bool:
    """A wait for an end of a name that passes the test."""
    return isinstance(call, AwaitGone) and test(call.generation, call.nr)


def is_usr1_of(g: Generation, k: int, call: Call) -> bool:
    return isinstance(call, Usr1) and bears(g, k, call.generation, call.nr)


def is_leave_call(call: Call) -> bool:
    return isinstance(call, Leave)


def is_late(a: AnyAnswer) -> bool:
    return a is Answer.Late


def one_then(first: Callable[[Entry], bool], second: Callable[[Entry], bool], entries: Entries) -> bool:
    """An entry that passes the first test, and a later one that passes the second."""
    return any(first(e) and any(map(second, entries[place + 1:])) for place, e in enumerate(entries))


def was_late(g: Generation, k: int, entries: Entries) -> bool:
    """The worker was told to quit, and was late at a wait for its end."""
    named = partial(bears, g, k)
    return one_then(lambda e: is_quit(named, e.call), lambda e: is_wait(named, e.call) and is_late(e.answer), entries)


def IsKillDue(first: Table, before: Entries, call: Call, t: Table) -> bool:
    """A kill of a name that a process Ready at first bears comes after it was late."""
    if not isinstance(call, Kill):
        return True
    named = partial(bears, call.generation, call.nr)
    is_borne = any(
        is_worker_where(lambda s: True, lambda n: n == p, named, row) for p, _ in ready_first(first) for row in t.rows
    )
    return not is_borne or was_late(call.generation, call.nr, before)


def KillsAreDue(first: Table, before: Entries, entries: Entries, passed: tuple[Progress, ...]) -> bool:
    """Each kill among these entries is due. The tables come in pairs: a call meets the second of its pair."""
    middles = passed[1::2]
    return len(entries) <= len(middles) and all(
        IsKillDue(first, before + entries[:place], e.call, middles[place].table) for place, e in enumerate(entries)
    )


def KillsOnlyLate(first: Table, ran: Ran) -> bool:
    return KillsAreDue(first, (), ran.entries, ran.passed)


def before_leave(entries: Entries) -> Entries | None:
    """The entries before a Leave, where there is one."""
    return next((entries[:place] for place, e in enumerate(entries) if is_leave_call(e.call)), None)


def LeavesLast(r: Record, ran: Ran) -> bool:
    """Before a Leave, each number that was ready was told to quit and waited for."""

    def told(k: int, e: Entry) -> bool:
        return is_quit(partial(bears, r.generation, k), e.call)

    def awaited(k: int, e: Entry) -> bool:
        return is_wait(partial(bears, r.generation, k), e.call)

    before = before_leave(ran.entries)
    return before is None or all(one_then(partial(told, k), partial(awaited, k), before) for k in r.ready)


# The manner of each target


def is_old_side(outcome: AnyOutcome) -> bool:
    return outcome is Outcome.RolledBack or (isinstance(outcome, Degraded) and outcome.side is Side.Old)


def UpgradeManner(r: Record, end: AnyOutcome, first: Table, ran: Ran) -> bool:
    """An upgrade that comes back leaves all workers, unless it had waited for them to go."""
    waited = any(is_wait(lambda g, k: True, e.call) for e in ran.entries)
    stay = not is_old_side(end) or waited or Stays(first, lambda k: True, ran)
    return stay and KillsOnlyLate(first, ran) and LeavesLast(r, ran)


def ReloadManner(r: Record, end: AnyOutcome, first: Table, ran: Ran) -> bool:
    """A reload that comes back leaves each worker but those that it waited for to be gone."""

    def waited(k: int) -> bool:
        return any(is_wait(partial(bears, r.generation, k), e.call) for e in ran.entries)

    stay = not is_old_side(end) or Stays(first, lambda k: not waited(k), ran)
    return stay and KillsOnlyLate(first, ran)


def Manner(r: Record, target: Target, end: AnyOutcome, first: Table, ran: Ran) -> bool:
    """A change of the number of workers leaves those alone whose number stays, and all on the old side; a mend leaves
    all that aren't overdue, and ends the others; a reopening leaves and tells all; a reload is as above.
    Outside a mend and a quick stop a worker is killed only after it was told to quit and was late; before a master
    leaves in peace its workers were told to quit and waited for; at a quick stop none is told to quit."""
    match target:
        case Workers(n):
            return Stays(first, lambda k: is_old_side(end) or k < n, ran) and KillsOnlyLate(first, ran)
        case Mend(overdue):
            stay = Stays(first, lambda k: not is_in(overdue, k), ran)
            return stay and Goes(first, partial(is_in, overdue), ran)
        case Reopen():
            told = all(any(is_usr1_of(r.generation, k, e.call) for e in ran.entries) for k in r.ready)
            return Stays(first, lambda k: True, ran) and told and KillsOnlyLate(first, ran)
        case Reload():
            return ReloadManner(r, end, first, ran)
        case Upgrade() | Attended():
            return UpgradeManner(r, end, first, ran)
        case Stop(False):
            return KillsOnlyLate(first, ran) and LeavesLast(r, ran)
        case Stop():
            return not any(is_quit(lambda g, k: True, e.call) for e in ran.entries)


# Where a run starts


def IsStart(t: Table, r: Record) -> bool:
    """The record agrees with a table of the kernel's, and its values are in range."""
    return IsFormed(t) and Agrees(t, r) and IsRecord(r) and IsRising(r.ready)


# Which patterns are refused


def names_any(images: Numbers, es: tuple[Name, ...]) -> bool:
    """The master of one of the images is among the processes that exit."""
    return any(isinstance(e, name.Master) and is_in(images, e.image) for e in es)


def refused_among(executing: Numbers, heirs: Numbers, pattern: Pattern, n: int, entries: Entries) -> int | None:
    """Of these calls, which follow the n-th, finds the first at whose moment an executing master exits. A master that
    leaves is executing up to and at its Leave, and its heir from it on."""
    for e in entries:
        n += 1
        leaves = is_leave_call(e.call)
        if names_any(executing + heirs if leaves else executing, pattern(n).exits):
            return n
        executing = heirs if leaves else executing
    return None


def heirs_of(r: Record, target: Target) -> Numbers:
    """An upgrade's new master takes over."""
    return (upgrade_generation(r.generation).image,) if isinstance(target, Upgrade | Attended) else ()


def run_of(r: Record, target: Target, turns: Turns, pattern: Pattern, t: Table) -> Ran:
    """The run of a target's plan under the turns."""
    return run_with(handover_for(r, target), plan_tree(r, target, turns), pattern, start_at(t, r.note))


def refusal_of(r: Record, target: Target, pattern: Pattern, ran: Ran) -> int | None:
    """The first moment of the run in which an executing master exits: a pattern with such a moment is refused, with
    its number. Moments after the run's end aren't looked at."""
    return refused_among((r.generation.image,), heirs_of(r, target), pattern, 0, ran.entries)


# How it ends


def IsFewerAt(m: int, full: Counts | None, less: Counts | None) -> bool:
    """One generation has m workers fewer, and each other as many."""
    if full is None or less is None:
        return full is None and less is None
    # (any generation of which both have none will do where m is 0)
    differing = [full[g] - less[g] for g in full.keys() | less.keys() if full[g] != less[g]]
    return differing == ([m] if m else [])


def FallsShort(layout: Layout, shortfalls: Numbers, full: Service, less: Service) -> bool:
    """One service is the other less the shortfalls of its groups, each at the addresses where the group listens. There
    is one for each group, and one of them is at least 1."""
    return len(shortfalls) == len(layout.groups) and 1 <= sum(shortfalls) and all(
        IsFewerAt(short_at(layout, shortfalls, a), full.get(a), less.get(a)) for a in full.keys() | less.keys()
    )


def Says(r: Record, target: Target, outcome: AnyOutcome, first: Table, last: Table) -> bool:
    """What an outcome says of the last table: Done, the target's service; RolledBack, the one of the first table;
    Degraded, that side's less the named shortfalls. Lost never comes."""
    match outcome:
        case Outcome.Done:
            return IsSame(service(last), want(r, target))
        case Outcome.RolledBack:
            return IsSame(service(last), service(first))
        case Degraded(Side.Old, shortfalls):
            return FallsShort(layout_of(r), shortfalls, service(first), service(last))
        case Degraded(Side.Target, shortfalls):
            return FallsShort(layout_wanted(r, target), shortfalls, want(r, target), service(last))
        case _:
            return False


def AgreesAfter(r: Record, target: Target, report: Report, t: Table) -> bool:
    """The record that the report leaves to the master that reigns agrees with the last table, and its values are in
    range. Its note says what the files are. A master of the old image is the old master."""
    then = next_record(r, target, report, t)
    if then is None:
        return False
    same_master = then.generation.image != r.generation.image or then.pid == r.pid
    return Agrees(t, then) and IsRecord(then) and same_master


def is_failed_removal(paths: tuple[FilePath, ...], call: Call, a: AnyAnswer) -> bool:
    """The removal of the file at one of the paths failed."""
    return isinstance(call, RemovePid) and a is Answer.IoFault and has(paths, call.path)


def was_failed(paths: tuple[FilePath, ...], entries: Entries) -> bool:
    return any(is_failed_removal(paths, e.call, e.answer) for e in entries)


def IsRemoved(path: FilePath, first: Table, ran: Ran) -> bool:
    """Where the removal of the file failed, what was there at first is there: its owner, or no file. Else no file is
    there."""
    was_there = owner_at(path, first.files) if was_failed((path,), ran.entries) else None
    return owner_at(path, ran.last.table.files) == was_there


def StopNote(note: PidNote, path: FilePath | None, first: Table, ran: Ran) -> bool:
    """The note after a stop: no file is there, or a removal failed and left what was there."""
    files = ran.last.table.files
    match note, path:
        case PidNote.NoFile, None:
            return True
        case PidNote.NoFile, str(at):
            return owner_at(at, files) is None and owner_at(oldbin(at), files) is None
        case PidNote.Left, str(at):
            failed = was_failed((at, oldbin(at)), ran.entries)
            return failed and IsRemoved(at, first, ran) and IsRemoved(oldbin(at), first, ran)
        case _:
            return False


def IsSucceeded(r: Record, target: Target, first: Table, ran: Ran) -> bool:
    """What a run leaves: after a stop there is no record, and no master and no worker."""
    report, last = report_of(sides_of(r, target), ran), ran.last.table
    if isinstance(target, Stop):
        is_gone = next_record(r, target, report, last) is None and not any(map(is_own, last.rows))
        return is_gone and StopNote(ran.last.note, r.pid_path, first, ran)
    return AgreesAfter(r, target, report, last)


# What is kept throughout


def IsCommon(old: Service, target: Service, a: Address) -> bool:
    """A key of both services."""
    return a in old and a in target


def sockets_of(first: Table, old: Service, target: Service) -> list[tuple[Address, int]]:
    """Each address that both services name, with each socket that a live master holds it on: Kept asks for no
    others."""
    masters = (p for p in first.rows if isinstance(p, Master) and p.live)
    return [(h.address, h.socket) for p in masters for h in p.holds if IsCommon(old, target, h.address)]


def Kept(sockets: list[tuple[Address, int]], t: Table) -> bool:
    """Each address that both services name is held by a live master, on the socket that it had in the first table."""

    def is_open(a: Address, socket: int, p: Process) -> bool:
        return is_live_where(lambda n, hs: any(h.address == a and h.socket == socket for h in hs), p)

    return all(any(is_open(a, socket, p) for p in t.rows) for a, socket in sockets)


def ready_with(a: Address, t: Table) -> int:
    """How many Ready workers hold an address."""
    return sum(is_serving(a, lambda g: True, p) for p in t.rows)


class Least(NamedTuple):
    """An address of both services, and how many Ready workers it must keep: as many as in the first table or as are
    wanted, whichever is fewer."""

    address: Address
    workers: int


def least_of(t: Table, r: Record, target: Target) -> list[Least]:
    """What Floor asks for at each address that both services name; it is the same for all tables of a run."""
    old, wanted = service(t), want(r, target)
    return [Least(a, min(ready_with(a, t), wanted_at(r, target, a))) for a in old if IsCommon(old, wanted, a)]


def Floor(excused: Callable[[Progress], int], least: list[Least], p: Progress) -> bool:
    """At each address that both services name the Ready workers that hold it, the losses so far and what is excused are
    at least as many as in the first table or as are wanted, whichever is fewer."""
    return all(each.workers <= ready_with(each.address, p.table) + p.losses + excused(p) for each in least)


# The accounts


def IsBlamed(p: Progress) -> bool:
    """As long as no call went wrong there was no fault; once one did there was a fault, a loss, or the operator went
    back."""
    if p.cause is None:
        return p.faults == 0
    return 1 <= p.faults + p.losses + len(p.returns)


def HasCause(outcome: AnyOutcome, cause: int | None) -> bool:
    """A run that goes back or falls short has a cause."""
    match outcome:
        case Outcome.Done:
            return True
        case Outcome.RolledBack | Degraded():
            return cause is not None
        case _:
            return False


def IsPaid(retries: int, outcome: AnyOutcome, p: Progress) -> bool:
    """The shortfalls of all groups and the retries before them are together no more than what failed or was lost."""
    if isinstance(outcome, Degraded):
        return sum(outcome.shortfalls) + retries <= p.faults + p.losses
    return outcome is not Outcome.Lost


# The headline


def HasDescriptors(t: Table, r: Record) -> bool:
    """Descriptors rise, from 3 on, and a process may have at most 64."""
    return RisesFrom(3, [l.descriptor for l in r.listeners]) and t.limits.descriptors <= 64


def Accepts(t: Table, r: Record, target: Target) -> bool:
    """What is asked of the target, beside a start."""
    g = r.generation
    match target:
        case Workers(n):
            return n <= 1024
        case Reload(s):
            return IsInRange(s) and HasDescriptors(t, r) and has_next(g.config)
        case Upgrade(s) | Attended(s):
            return IsInRange(s) and HasDescriptors(t, r) and has_next(g.image) and has_next(g.config)
        case _:
            return True


def IsAccepted(t: Table, r: Record, target: Target, pattern: Pattern, ran: Ran) -> bool:
    """The pattern must not name an executing master."""
    return IsStart(t, r) and Accepts(t, r, target) and refusal_of(r, target, pattern, ran) is None


def distinct(passed: tuple[Progress, ...]) -> list[Progress]:
    """(A moment without exits is there twice, before and after them: it is looked at once.)"""
    return [p for place, p in enumerate(passed) if place == 0 or p is not passed[place - 1]]


def owed_in(s: Settings, p: Progress) -> int:
    """Where a reload has more than one step, each fault so far may have kept an old worker from being started again."""
    return p.faults if 0 < s.surge < s.workers else 0


def HasFloor(t: Table, r: Record, target: Target, ran: Ran) -> bool:
    """Each target but two has a floor at each table of the run: a mend kills first, and a stop leaves no worker. Once
    the operator of an attended upgrade went back at the second question, when the old workers were gone, the faults
    since then are excused: each may have kept an old worker from being started again."""
    least = least_of(t, r, target)
    match target:
        case Attended():
            return all(Floor(lambda p: faults_since(2, p.returns, p.faults), least, p) for p in distinct(ran.passed))
        case Reload(s):
            return all(Floor(partial(owed_in, s), least, p) for p in distinct(ran.passed))
        case Mend() | Stop():
            return True
        case _:
            return all(Floor(lambda p: 0, least, p) for p in distinct(ran.passed))


# what is claimed of a run, and whether it is so
Claims = dict[str, bool]


def KeepsPromise(t: Table, r: Record, target: Target, ran: Ran) -> Claims:
    """What is promised of a run (Headline): it ends as its report says and keeps what it has to, in the target's
    manner."""
    outcome = report_of(sides_of(r, target), ran).outcome
    sockets = sockets_of(t, service(t), want(r, target))
    return {
        "says": Says(r, target, outcome, t, ran.last.table),
        "after": IsSucceeded(r, target, t, ran),
        "kept": all(Kept(sockets, p.table) for p in distinct(ran.passed)),
        "floor": HasFloor(t, r, target, ran),
        "manner": Manner(r, target, outcome, t, ran),
        "blamed": all(IsBlamed(p) for p in distinct(ran.passed)),
        "cause": HasCause(outcome, ran.last.cause),
        "paid": IsPaid(r.retries, outcome, ran.last),
    }


# How long a run is (run_laws/specs/Lengths.antt)


def most_calls(r: Record, target: Target) -> int:
    """(most_calls) No upgrade is longer. The numbers are those of `Lengths.antt` in `run_laws`: for each worker that is
    ready or wanted, each address before or after, each retry, and once."""
    workers = len(r.ready) + len(numbers_wanted(r, target))
    return 9 * workers + 3 * (len(r.listeners) + len(addresses_wanted(r, target))) + 16 * r.retries + 48


def is_short(r: Record, target: Target, ran: Ran) -> bool:
    """(RunsWithin, PlansFit, UpgradesAreShort) A run makes no more calls than its plan's longest path has steps, and
    that is bounded in an upgrade."""
    length = plan_length(r, target)
    is_bounded = not isinstance(target, Upgrade | Attended) or length <= most_calls(r, target)
    return len(ran.entries) <= length and is_bounded

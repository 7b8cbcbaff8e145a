"""What a run keeps beside the headline (quiet_runs/specs/Quiet.antt, further_theorems/specs/Proper.antt,
Left.antt, Named.antt, Peace.antt and Bound.antt, upgrade_theorems/specs/First.antt and Marks.antt)."""
from collections.abc import Callable
from functools import partial
from typing import NamedTuple

from reader.addresses import Addresses, FilePath
from reader.after import next_record
from reader.claims import Claims, has_ready, is_leave_call, is_old_side, is_quit, is_wait, one_then
from reader.master import (
    Attended, Mend, Record, Reload, Reopen, Stop, Target, Upgrade, Workers, addresses_of, addresses_wanted,
    generation_wanted, oldbin, sides_of, upgrade_generation, want,
)
from reader.living_at_once import StaysBelow
from reader.numbers import is_in, numbers_below
from reader.pieces import quiet
from reader.plans import only_in
from reader.run import Moment, Pattern, Ran, report_of
from reader.table import IsSame, Table, Worker, bears, is_held, is_own, owner_at, same_generation, service
from reader.vocabulary import (
    Adopt, Alive, Answer, Ask, AwaitGone, AwaitReady, Call, Census, CloseAt, Degraded, End, Entry, Fork, Generation,
    Kill, Leave, MovePid, OpenAt, Outcome, Quit, RemovePid, Report, Side, SpawnMaster, Stance, TermMaster, Usr1,
    WritePid,
)

# That plans work


def addresses_opened(r: Record, target: Target) -> Addresses:
    """The addresses that a target opens."""
    return only_in(addresses_wanted(r, target), addresses_of(r))


def processes_started(r: Record, target: Target) -> int:
    """The processes that a target starts."""
    match target:
        case Workers(n):
            return sum(not is_in(r.ready, k) for k in numbers_below(n))
        case Mend(overdue):
            return sum(not is_in(r.ready, k) or is_in(overdue, k) for k in numbers_below(r.wanted))
        case Reload(s):
            return s.workers
        case Upgrade(s) | Attended(s):
            return s.workers + 1
        case Reopen() | Stop():
            return 0


def HasResources(t: Table, r: Record, target: Target) -> bool:
    """There is room for the processes that the target starts and for the descriptors of the addresses that it opens,
    which nobody holds, and of which none is named twice."""
    opened = addresses_opened(r, target)
    return (
        sum(is_own(p) for p in t.rows) + processes_started(r, target) <= t.limits.processes
        and len(r.listeners) + len(opened) <= t.limits.descriptors
        and not any(is_held(a, t.rows) for a in opened)
        and len(set(opened)) == len(opened)
    )


def IsDone(r: Record, target: Target, ran: Ran) -> bool:
    """A run ends Done, no call of it went wrong, and the service is the target's."""
    report = report_of(sides_of(r, target), ran)
    same = IsSame(service(ran.last.table), want(r, target))
    return report.outcome is Outcome.Done and report.cause is None and same


def no_event(n: int) -> Moment:
    return quiet


def QuietIsDone(t: Table, r: Record, target: Target, run: Callable[[Pattern], Ran]) -> bool:
    """Under no event and with the resources that a target needs it ends Done."""
    return not HasResources(t, r, target) or IsDone(r, target, run(no_event))


# Which calls are made, and by whom


def own_files(path: FilePath | None) -> tuple[FilePath, ...]:
    """The master's two files."""
    return () if path is None else (path, oldbin(path))


def IsOfOwn(r: Record, wanted: Generation, by: int, g: Generation) -> bool:
    """The workers are the master's own, of the generation that runs or of the one that is wanted."""
    return by == g.image and (same_generation(g, r.generation) or same_generation(g, wanted))


def IsOfHeir(r: Record, by: int, image: int) -> bool:
    """The old master, of its heir."""
    return by == r.generation.image and image == upgrade_generation(r.generation).image


def IsProper(r: Record, target: Target, e: Entry) -> bool:
    """The call is made by the master whose workers it names, and touches no file, address or master of others."""
    wanted, addresses, files = generation_wanted(r, target), addresses_wanted(r, target), own_files(r.pid_path)
    old = r.generation.image
    match e.call:
        case OpenAt(a):
            return e.by == wanted.image and a in addresses and a not in addresses_of(r)
        case CloseAt(a):
            return e.by == wanted.image and (a not in addresses_of(r) or a not in addresses)
        case Fork(g, _, _) | AwaitReady(g, _) | Quit(g, _) | Kill(g, _) | Census(g) | AwaitGone(g, _) | Usr1(g, _):
            return IsOfOwn(r, wanted, e.by, g)
        case SpawnMaster(image) | TermMaster(image) | Alive(image):
            return IsOfHeir(r, e.by, image)
        case Adopt():
            return e.by == wanted.image
        case WritePid(path):
            return e.by == wanted.image and path in files
        case MovePid(source, to):
            return e.by == old and source in files and to in files
        case RemovePid(path):
            return e.by in (old, wanted.image) and path in files
        case Leave() | Ask(_):
            return e.by == old


def FilesOfOthersStay(r: Record, t: Table, ran: Ran) -> bool:
    """Each file but the master's two is in each table of a run as it was at first."""
    own = own_files(r.pid_path)
    tables = [t, *(p.table for p in ran.passed)]
    paths = {f.path for table in tables for f in table.files} - set(own)
    return all(owner_at(path, table.files) == owner_at(path, t.files) for path in paths for table in tables)


# The record that is left


class Wants(NamedTuple):
    """How many workers a target has the master want, how often it retries, and how long it waits for a beat."""

    workers: int
    retries: int
    timeout: int


def wants_then(r: Record, target: Target) -> Wants:
    match target:
        case Workers(n):
            return Wants(n, r.retries, r.timeout)
        case Reload(s) | Upgrade(s) | Attended(s):
            return Wants(s.workers, s.retries, s.timeout)
        case Mend() | Reopen() | Stop():
            return Wants(r.wanted, r.retries, r.timeout)


def names_target(report: Report) -> bool:
    """Whether the outcome names the target's side."""
    outcome = report.outcome
    return outcome is Outcome.Done or (isinstance(outcome, Degraded) and outcome.side is Side.Target)


def IsLeft(r: Record, target: Target, report: Report, left: Record) -> bool:
    """The record has the settings of the side that the outcome names, and what the report says."""
    is_target = names_target(report)
    wants = wants_then(r, target) if is_target else Wants(r.wanted, r.retries, r.timeout)
    generation = generation_wanted(r, target) if is_target else r.generation
    return (
        Wants(left.wanted, left.retries, left.timeout) == wants
        and same_generation(left.generation, generation)
        and left.pid_path == r.pid_path
        and (left.ready, left.note) == (report.ready, report.note)
    )


def RecordIsLeft(r: Record, target: Target, ran: Ran) -> bool:
    """What comes of the record, where one is left."""
    report = report_of(sides_of(r, target), ran)
    left = next_record(r, target, report, ran.last.table)
    return left is None or IsLeft(r, target, report, left)


# Which calls take a worker away


def takes_ready(g: Generation, k: int, call: Call) -> bool:
    """The calls that may take a Ready worker of the name out of its stance."""
    match call:
        case Quit(h, j) | Kill(h, j):
            return bears(g, k, h, j)
        case Leave() | TermMaster(_):
            return True
        case _:
            return False


def takes_draining(g: Generation, k: int, call: Call) -> bool:
    """And a Draining one out of the table."""
    match call:
        case AwaitGone(h, j) | Kill(h, j):
            return bears(g, k, h, j)
        case Leave() | TermMaster(_):
            return True
        case _:
            return False


def TakesByName(call: Call, t: Table, then: Table) -> bool:
    """The call leaves each process in its stance, but for those that it may take."""
    left = {(p.number, p.stance, p.generation, p.nr) for p in then.rows if isinstance(p, Worker)}
    takes = {Stance.Ready: takes_ready, Stance.Draining: takes_draining}
    return all(
        (p.number, p.stance, p.generation, p.nr) in left or takes[p.stance](p.generation, p.nr, call)
        for p in t.rows
        if isinstance(p, Worker) and p.stance in takes
    )


def TakeByName(ran: Ran) -> bool:
    """Each call of the run: it leads from the second table of its pair to the next one."""
    return all(
        TakesByName(e.call, ran.passed[2 * place + 1].table, ran.passed[2 * place + 2].table)
        for place, e in enumerate(ran.entries)
    )


# That workers end in peace


def is_at(stance: Stance, p: int, g: Generation, k: int, t: Table) -> bool:
    """The process is a worker in this stance with the name."""
    return any(
        isinstance(row, Worker) and row.number == p and row.stance is stance and bears(g, k, row.generation, row.nr)
        for row in t.rows
    )


def is_kill(test: Callable[[Generation, int], bool], call: Call) -> bool:
    return isinstance(call, Kill) and test(call.generation, call.nr)


class Seen(NamedTuple):
    """What a process that drains has seen of its master: that it waited for its end, and that it was late then."""

    wait: bool
    late: bool


class Peace(NamedTuple):
    """One process that was ready at first: its number and its name. Its master is of its generation's image."""

    p: int
    g: Generation
    k: int

    def is_by(self, test: Callable[[Callable[[Generation, int], bool], Call], bool], e: Entry) -> bool:
        """Such a call of its name, made by its master."""
        return e.by == self.g.image and test(partial(bears, self.g, self.k), e.call)

    def seen_after(self, drains: bool, e: Entry, seen: Seen) -> Seen:
        """After one call more, which met the process draining or not."""
        waits = drains and self.is_by(is_wait, e)
        return Seen(seen.wait or waits, seen.late or (waits and e.answer is Answer.Late))

    def ends_gently(self, seen: Seen, e: Entry) -> bool:
        """What takes a process that drains out of the table: a wait for its end, a kill once it was late at such a
        wait, or the leave of its master after such a wait."""
        leaves = e.by == self.g.image and is_leave_call(e.call)
        return self.is_by(is_wait, e) or (self.is_by(is_kill, e) and seen.late) or (leaves and seen.wait)

    def IsGentle(self, seen: Seen, e: Entry, t: Table, then: Table) -> bool:
        """The call takes it out of Ready only by a quit, and then it drains; and out of Draining only gently."""
        def leaves(stance: Stance) -> bool:
            return is_at(stance, *self, t) and not is_at(stance, *self, then)

        quits = self.is_by(is_quit, e) and is_at(Stance.Draining, *self, then)
        return (not leaves(Stance.Ready) or quits) and (not leaves(Stance.Draining) or self.ends_gently(seen, e))

    def EndsInPeace(self, ran: Ran) -> bool:
        """Each call of the run is gentle."""
        seen = Seen(False, False)
        for place, e in enumerate(ran.entries):
            middle, after = ran.passed[2 * place + 1].table, ran.passed[2 * place + 2].table
            if not self.IsGentle(seen, e, middle, after):
                return False
            seen = self.seen_after(is_at(Stance.Draining, *self, middle), e, seen)
        return True


def KeepsPeace(r: Record, target: Target, first: Table, ran: Ran) -> bool:
    """Each process that is ready at first ends in peace; not at a mend, nor at a quick stop."""
    if isinstance(target, Mend) or (isinstance(target, Stop) and target.quick):
        return True
    its = [(p.number, p.nr) for p in first.rows if isinstance(p, Worker) and has_ready(first, p.number, p.nr)]
    return all(Peace(p, r.generation, k).EndsInPeace(ran) for p, k in its)


# That the operator is obeyed


def is_back(e: Entry) -> bool:
    """The operator went back."""
    return isinstance(e.call, Ask) and e.answer is Answer.Back


def ObeysOperator(r: Record, target: Target, ran: Ran) -> bool:
    """Once the operator of an attended upgrade went back nobody is told to quit any more, and it ends on the old
    side."""
    if not isinstance(target, Attended):
        return True
    outcome = report_of(sides_of(r, target), ran).outcome
    quits_after = one_then(is_back, lambda e: isinstance(e.call, Quit), ran.entries)
    return not quits_after and (not any(map(is_back, ran.entries)) or is_old_side(outcome))


# What an upgrade does only once something else was done


def OnlyAfter(first: Callable[[Entry], bool], second: Callable[[Entry], bool], entries: tuple[Entry, ...]) -> bool:
    """As long as no entry has passed the first test, none passes the second one."""
    for e in entries:
        if second(e):
            return False
        if first(e):
            return True
    return True


def has_adopted(image: int, e: Entry) -> bool:
    """The master of the image took over what it was told."""
    return e.by == image and e.call == Adopt() and e.answer == Answer.Adopted


def acts(image: int, e: Entry) -> bool:
    """Any other call of the master of the image."""
    return e.by == image and e.call != Adopt()


def AdoptsFirst(r: Record, target: Target, ran: Ran) -> bool:
    """The new master of an upgrade makes no call before it has adopted."""
    if not isinstance(target, Upgrade | Attended):
        return True
    heir = upgrade_generation(r.generation).image
    return OnlyAfter(partial(has_adopted, heir), partial(acts, heir), ran.entries)


def is_go(question: int, e: Entry) -> bool:
    """The operator went on at the question."""
    return e.call == Ask(question) and e.answer == Answer.Go


def IsAsked(target: Target, ran: Ran) -> bool:
    """In an attended upgrade nobody is told to quit before the operator went on at the first question, and no master
    leaves before that at the second one."""
    if not isinstance(target, Attended):
        return True
    return (
        OnlyAfter(partial(is_go, 1), lambda e: isinstance(e.call, Quit), ran.entries)
        and OnlyAfter(partial(is_go, 2), lambda e: is_leave_call(e.call), ran.entries)
    )


# Where a run ends


def IsEnd(ran: Ran) -> bool:
    """One of the ends that a report names."""
    return ran.ending in (End.Done, End.RolledBack, End.ShortOld, End.ShortTarget)


def KeepsBeside(t: Table, r: Record, target: Target, ran: Ran, run: Callable[[Pattern], Ran]) -> Claims:
    """What a run keeps beside the headline; and how the target's plan is run under another pattern."""
    return {
        "quiet": QuietIsDone(t, r, target, run),
        "proper": all(IsProper(r, target, e) for e in ran.entries),
        "files": FilesOfOthersStay(r, t, ran),
        "left": RecordIsLeft(r, target, ran),
        "named": TakeByName(ran),
        "peace": KeepsPeace(r, target, t, ran),
        "ceiling": StaysBelow(t, r, target, ran),
        "obeyed": ObeysOperator(r, target, ran),
        "adopts": AdoptsFirst(r, target, ran),
        "asked": IsAsked(target, ran),
        "ends": IsEnd(ran),
    }

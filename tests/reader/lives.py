"""What holds of a life: targets that are carried out one after another, from a running master on (lives/specs/Lives.antt
and IsKept of kernel_table/specs/Room.antt).

A task is the target, the turns and the pattern of a `Run`, which has its run and its report too: `run_at`,
`reported_at`, `table_after` and `record_left_by` are what it keeps. So a life is the list of its runs and of the
standings between them, and `Through` is a look at both lists. A claim about all addresses or lists of overdue workers is
looked at for those that there are, and for some."""
from collections import Counter
from collections.abc import Callable, Iterable
from typing import NamedTuple

from reader.addresses import Address
from reader.claims import Claims, HasDescriptors, IsStart, KeepsPromise, distinct, run_of
from reader.master import Mend, Record, Reopen, Target, sides_of, want
from reader.numbers import Numbers, is_in, lacks, numbers_below
from reader.pieces import quiet
from reader.run import Progress, Ran, report_of
from reader.table import Holds, IsFormed, IsSame, Master, Service, Table, holds_of, is_live_where, is_own, service
from reader.vocabulary import AnyOutcome, Degraded, Outcome, Report
from reader.words import Run


class Stand(NamedTuple):
    """Where a life stands between two tasks: the table and the record, which is none after a stop."""

    table: Table
    record: Record | None


class Life(NamedTuple):
    """The standings, and the run of each task that leads from one to the next."""

    stands: tuple[Stand, ...]
    runs: tuple[Run, ...]


# What a life starts from


def IsKept(t: Table) -> bool:
    """What every table of a kernel keeps: it is formed, an image has one master at most, its sockets have numbers that
    were given out, and no process may have more than 64 descriptors."""
    images = Counter(p.image for p in t.rows if isinstance(p, Master))
    known = all(1 <= h.socket < t.next_socket for p in t.rows for h in holds_of(p))
    once = all(count <= 1 for count in images.values())
    return IsFormed(t) and once and known and 1 <= t.next_socket and t.limits.descriptors <= 64


def IsStanding(t: Table, r: Record) -> bool:
    """The record is true of a table that a kernel makes, and its descriptors rise."""
    return IsStart(t, r) and HasDescriptors(t, r) and IsKept(t)


# What is promised of it


def StaysTrue(life: Life) -> bool:
    """The record of each standing is true of its table, and each run keeps the promise of the headline."""
    stand = all(s.record is None or IsStanding(s.table, s.record) for s in life.stands)
    return stand and all(all(KeepsPromise(x.table, x.record, x.target, x.ran).values()) for x in life.runs)


def is_open(a: Address, socket: int, t: Table) -> bool:
    """A live master holds the address on the socket."""

    def holds(n: int, hs: Holds) -> bool:
        return any(h.address == a and h.socket == socket for h in hs)

    return any(is_live_where(holds, p) for p in t.rows)


def sockets_at(a: Address, t: Table) -> set[int]:
    """(The sockets on which a live master holds it: is_open is so of no others.)"""
    masters = (p for p in t.rows if isinstance(p, Master) and p.live)
    return {h.socket for p in masters for h in p.holds if h.address == a}


def IsAlwaysNamed(a: Address, life: Life) -> bool:
    """The service of each standing names it: the first one, and the one that each report names."""
    return all(a in service(s.table) for s in life.stands)


def IsAlwaysOpen(a: Address, socket: int, life: Life) -> bool:
    """It is open on the socket at each standing, and in every table of every run."""
    tables = [p.table for x in life.runs for p in distinct(x.ran.passed)]
    return all(is_open(a, socket, t) for t in (*(s.table for s in life.stands), *tables))


def StaysOpen(life: Life) -> bool:
    """An address that the service of each standing names, and that is open on a socket at first, is always open on it."""
    first = life.stands[0].table
    named = [a for a in service(first) if IsAlwaysNamed(a, life)]
    return all(IsAlwaysOpen(a, socket, life) for a in named for socket in sockets_at(a, first))


def quiet_tick(overdue: Numbers) -> Target:
    """A tick at which these workers are overdue, no call fails and nobody exits."""
    return Mend(overdue)


def to_start(r: Record, overdue: Numbers) -> Numbers:
    """The workers that it starts."""
    return tuple(k for k in numbers_below(r.wanted) if not is_in(r.ready, k) or is_in(overdue, k))


def HasProcessesFor(t: Table, r: Record, overdue: Numbers) -> bool:
    """As many processes more as it starts workers."""
    return sum(map(is_own, t.rows)) + len(to_start(r, overdue)) <= t.limits.processes


def full_service(r: Record) -> Service:
    """The service of a record in full: each of the wanted workers is Ready."""
    return want(r, Mend(()))


def quietly(t: Table, r: Record, overdue: Numbers) -> Ran:
    """(The run of a quiet tick.)"""
    return run_of(r, quiet_tick(overdue), (), lambda n: quiet, t)


def is_healing(r: Record, overdue: Numbers, ran: Ran) -> bool:
    """(IsHealed) It is done, no call of it went wrong, and the service is the record's in full."""
    report: Report = report_of(sides_of(r, quiet_tick(overdue)), ran)
    full = IsSame(service(ran.last.table), full_service(r))
    return report.outcome is Outcome.Done and report.cause is None and full


def CanBeHealed(t: Table, r: Record, lists: Iterable[Numbers]) -> bool:
    """One quiet tick heals, whichever of these workers are overdue."""
    return all(is_healing(r, o, quietly(t, r, o)) for o in lists if HasProcessesFor(t, r, o))


# Each list of overdue workers that is looked at, for a record
Overdue = Callable[[Record], Iterable[Numbers]]


def StaysHealable(life: Life, overdue: Overdue) -> bool:
    return all(s.record is None or CanBeHealed(s.table, s.record, overdue(s.record)) for s in life.stands)


# What is lacking


def missing_workers(r: Record) -> int:
    """How many of the wanted workers are not Ready."""
    return len(lacks(numbers_below(r.wanted), r.ready))


def owed_when_done(owed: int, target: Target) -> int:
    """The account of what may be lacking, once a run is done: nothing. A reopening wants no more than those that are
    ready: it clears no account."""
    return owed if isinstance(target, Reopen) else 0


def owed_after(owed: int, r: Record, target: Target, outcome: AnyOutcome, last: Progress) -> int:
    """The account after a run: after a way back it is what it was, and after a run that fell short what failed or was
    lost in it is added, less the retries that it made."""
    if outcome is Outcome.Done:
        return owed_when_done(owed, target)
    if isinstance(outcome, Degraded):
        return owed + max(0, last.faults + last.losses - r.retries)
    return owed


def IsAccounted(owed: int, life: Life) -> bool:
    """What is lacking at each standing is within the account."""
    for place, stand in enumerate(life.stands):
        if stand.record is not None and missing_workers(stand.record) > owed:
            return False
        if place < len(life.runs):
            x = life.runs[place]
            owed = owed_after(owed, x.record, x.target, x.report.outcome, x.ran.last)
    return True


def is_accounted(life: Life) -> bool:
    """From what is missing at first on."""
    first = life.stands[0].record
    return first is None or IsAccounted(missing_workers(first), life)


# The record stays true of the table; an address that every service of the life names stays open on the same socket at
# every call; one quiet tick heals whatever is lacking; and what is lacking is accounted for.
CLAIMS: dict[str, Callable[[Life, Overdue], bool]] = {
    "stays true": lambda life, overdue: StaysTrue(life),
    "stays open": lambda life, overdue: StaysOpen(life),
    "healable": StaysHealable,
    "accounted": lambda life, overdue: is_accounted(life),
}


def LifeKeeps(life: Life, overdue: Overdue) -> Claims:
    """(LivesKeepTheirPromise)"""
    return {claim: holds(life, overdue) for claim, holds in CLAIMS.items()}

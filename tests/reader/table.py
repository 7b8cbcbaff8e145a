"""The table of processes: which run, what each holds, which files exist, and the service of a table (Table.antt).

Address and FilePath are in addresses.py, since vocabulary.py needs them too. A service is a map by extension: each
address that is a key goes to the count of each generation. Here it is a dictionary, and a generation that has no count
has the count 0."""
from collections import Counter
from collections.abc import Callable
from dataclasses import dataclass
from typing import NamedTuple

from reader.addresses import Address, Addresses, FilePath
from reader.vocabulary import Generation, Limits, Stance


def same_generation(g: Generation, h: Generation) -> bool:
    return g.image == h.image and g.config == h.config


class Hold(NamedTuple):
    """A descriptor, its socket, and the address of that socket."""

    fd: int
    socket: int
    address: Address


Holds = tuple[Hold, ...]


@dataclass(frozen=True, slots=True)
class Master:
    number: int
    parent: int
    image: int
    live: bool
    holds: Holds


@dataclass(frozen=True, slots=True)
class Worker:
    number: int
    parent: int
    generation: Generation
    nr: int
    stance: Stance
    holds: Holds


@dataclass(frozen=True, slots=True)
class Foreign:
    number: int
    holds: Holds


Process = Master | Worker | Foreign
Rows = tuple[Process, ...]


class File(NamedTuple):
    path: FilePath
    owner: int


class Table(NamedTuple):
    rows: Rows
    files: tuple[File, ...]
    next_process: int
    next_socket: int
    limits: Limits


# Rows


def number_of(p: Process) -> int:
    return p.number


def holds_of(p: Process) -> Holds:
    return p.holds


def is_own(p: Process) -> bool:
    """The rows that the process limit counts."""
    return not isinstance(p, Foreign)


def is_master(p: Process) -> bool:
    return isinstance(p, Master)


def same_stance(a: Stance, b: Stance) -> bool:
    return a is b


def is_active(s: Stance) -> bool:
    """Starting or Ready."""
    return same_stance(Stance.Starting, s) or same_stance(Stance.Ready, s)


def bears(g: Generation, k: int, h: Generation, j: int) -> bool:
    return same_generation(h, g) and j == k


IsStance = Callable[[Stance], bool]


def is_worker_where(
    stance: IsStance, number: Callable[[int], bool], test: Callable[[Generation, int], bool], p: Process
) -> bool:
    """A worker in such a stance, with such a process number and such a name."""
    return isinstance(p, Worker) and stance(p.stance) and number(p.number) and test(p.generation, p.nr)


def is_worker(stance: IsStance, caller: int, g: Generation, k: int, p: Process) -> bool:
    """A worker of the caller with the name, in such a stance."""
    return isinstance(p, Worker) and stance(p.stance) and p.parent == caller and bears(g, k, p.generation, p.nr)


class Caller(NamedTuple):
    """A live master, as its process number and its holds."""

    number: int
    holds: Holds


def live_master(image: int, rows: Rows) -> Caller | None:
    """The live master of an image."""
    for p in rows:
        if isinstance(p, Master) and p.live and p.image == image:
            return Caller(p.number, p.holds)
    return None


def is_live_where(test: Callable[[int, Holds], bool], p: Process) -> bool:
    """A live master with such a process number and such holds."""
    return isinstance(p, Master) and p.live and test(p.number, p.holds)


# Addresses and files


def has_address(a: Address, hs: Holds) -> bool:
    return any(h.address == a for h in hs)


def is_held(a: Address, rows: Rows) -> bool:
    """Some process holds a socket of it; one that has exited holds nothing."""
    return any(has_address(a, holds_of(p)) for p in rows)


def owner_at(path: FilePath, files: tuple[File, ...]) -> int | None:
    """The process number that the file at the path holds."""
    return next((f.owner for f in files if f.path == path), None)


# What every table that the kernel makes keeps by itself: process numbers are not used again


def IsQuiet(p: Process) -> bool:
    """A worker that drains or has exited holds nothing; of a master, or of a foreign process, nothing is asked."""
    return not isinstance(p, Worker) or p.stance not in (Stance.Draining, Stance.Exited) or p.holds == ()


def HasParent(rows: Rows, p: Process) -> bool:
    """A worker's parent is a live master."""
    if not isinstance(p, Worker):
        return True
    parent = p.parent
    return any(is_live_where(lambda m, _: m == parent, row) for row in rows)


def IsAscending(least: int, rows: Rows, next_number: int) -> bool:
    """Process numbers rise from the first on and stay below the last."""
    for p in rows:
        if number_of(p) < least:
            return False
        least = number_of(p) + 1
    return least <= next_number


def IsFormed(t: Table) -> bool:
    active = Counter((p.parent, p.generation, p.nr) for p in t.rows if isinstance(p, Worker) and is_active(p.stance))
    # At most one Starting or Ready worker of a master bears a name.
    once = all(count <= 1 for count in active.values())
    return (
        once
        and all(map(IsQuiet, t.rows))
        and all(HasParent(t.rows, p) for p in t.rows)
        and IsAscending(0, t.rows, t.next_process)
    )


# The service: which addresses are served, and by how many workers of each generation. It is what clients can tell: a
# worker that drains serves nobody new, and does not count.

Counts = Counter[Generation]
Service = dict[Address, Counts]


def is_serving(a: Address, test: Callable[[Generation], bool], p: Process) -> bool:
    """A Ready worker of such a generation that holds the address."""
    return (
        isinstance(p, Worker)
        and same_stance(Stance.Ready, p.stance)
        and test(p.generation)
        and has_address(a, p.holds)
    )


def service(t: Table) -> Service:
    """The keys are the addresses that a live master holds, each with its Ready workers, by generation."""
    # (in the order of the holds, so that a seed gives the same run again; the rows are looked through once for all
    # generations)
    keys = dict.fromkeys(h.address for p in t.rows if isinstance(p, Master) and p.live for h in p.holds)
    workers = [p for p in t.rows if isinstance(p, Worker)]
    return {a: Counter(p.generation for p in workers if is_serving(a, lambda g: True, p)) for a in keys}


def serving(addresses: Addresses, g: Generation, count: Callable[[Address], int]) -> Service:
    """At each of these addresses its number of workers of one generation."""
    return {a: Counter({g: count(a)}) for a in addresses}


def IsSame(s: Service, other: Service) -> bool:
    # (a count of 0 is the same as none)
    return s == other

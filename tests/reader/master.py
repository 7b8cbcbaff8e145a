"""What a master knows of itself and of its groups of workers, when it is so, and the service that a target wants
(Master.antt).

The targets and the sides are plain types of the vocabulary; they are here, since settings.py and groups.py, which they
need, need vocabulary.py."""
from collections.abc import Callable
from dataclasses import dataclass
from functools import partial
from typing import NamedTuple

from reader.addresses import Address, Addresses, FilePath, has
from reader.calls import Handed, Handover, shared
from reader.crews import Crew, Posts, fds_in, fds_of
from reader.groups import AreGroups, Groups, group_of
from reader.numbers import Numbers, is_in, numbers_below
from reader.settings import HasSuffixRoom, Settings
from reader.table import (
    File, Holds, Process, Service, Table, Worker, is_master, is_worker, live_master, owner_at, same_stance, serving,
)
from reader.vocabulary import Call, Fork, Generation, Listener, Listeners, PidNote, Stance


class Sides(NamedTuple):
    """The groups of the old side and of the target's."""

    old: Groups
    target: Groups


@dataclass(frozen=True, slots=True)
class Workers:
    """This number of workers, at most 1024."""

    number: int


@dataclass(frozen=True, slots=True)
class Mend:
    """All wanted workers, those of these numbers, which are overdue, started anew."""

    overdue: Numbers


@dataclass(frozen=True, slots=True)
class Reopen:
    """The service as it is, with each worker told to reopen its logs."""


@dataclass(frozen=True, slots=True)
class Reload:
    settings: Settings


@dataclass(frozen=True, slots=True)
class Upgrade:
    settings: Settings


@dataclass(frozen=True, slots=True)
class Attended:
    settings: Settings


@dataclass(frozen=True, slots=True)
class Stop:
    quick: bool


Target = Workers | Mend | Reopen | Reload | Upgrade | Attended | Stop

# Groups of workers: each takes its number of a configuration's addresses and of its worker numbers, the next ones


def fork_of(crew: Crew, k: int) -> Call:
    """The call that starts a worker of a crew: with the descriptors of its group, where there are several."""
    return Fork(crew.generation, k, fds_of(crew.posts, k))


class Layout(NamedTuple):
    """The groups of a service, and whether a group, by its place, listens at an address."""

    groups: Groups
    listens: Callable[[int, Address], bool]


def addresses_of_group(gs: Groups, addresses: Addresses, place: int) -> Addresses:
    """The addresses of a group, by its place: each takes its number of them, the next ones."""
    if not gs:
        return ()
    if place == 0:
        return addresses[:gs[0].addresses]
    return addresses_of_group(gs[1:], addresses[gs[0].addresses:], place - 1)


def layout_in(groups: Groups, addresses: Addresses) -> Layout:
    """As a configuration lays it out."""
    return Layout(groups, lambda place, a: has(addresses_of_group(groups, addresses, place), a))


def listeners_under(fds: Numbers | None, ls: Listeners) -> Listeners:
    """The listeners at these descriptors, or all."""
    return ls if fds is None else tuple(l for l in ls if is_in(fds, l.descriptor))


def served(layout: Layout, numbers: Numbers, a: Address) -> int:
    """How many of these worker numbers an address counts: those whose group listens there."""
    return sum(layout.listens(group_of(layout.groups, k), a) for k in numbers)


def short_at(layout: Layout, shortfalls: Numbers, a: Address) -> int:
    """What an address is short by, where each group is short by its number."""
    return sum(shortfalls[place] for place in numbers_below(len(shortfalls)) if layout.listens(place, a))


# What a master knows of itself


class Record(NamedTuple):
    # in ascending descriptors
    listeners: Listeners
    # where the workers of each group listen
    posts: Posts
    generation: Generation
    # in ascending order
    ready: Numbers
    wanted: int
    retries: int
    timeout: int
    pid_path: FilePath | None
    note: PidNote
    pid: int


def IsRecord(r: Record) -> bool:
    """At least one listener, 1 to 16 groups, ready numbers below the wanted count, and the ranges of a
    configuration."""
    return (
        1 <= len(r.listeners)
        and AreGroups(r.posts.groups)
        and r.wanted <= 1024
        and all(k < r.wanted for k in r.ready)
        and r.retries <= 8
        and 1 <= r.timeout <= 86400
        and HasSuffixRoom(r.pid_path)
        and 1 <= r.pid
    )


def addresses_of(r: Record) -> Addresses:
    return tuple(l.address for l in r.listeners)


def crew_of(r: Record) -> Crew:
    return Crew(r.generation, r.posts)


def layout_of(r: Record) -> Layout:
    """As a master's descriptors lay it out."""
    return Layout(
        r.posts.groups,
        lambda place, a: has([l.address for l in listeners_under(fds_in(r.posts, place), r.listeners)], a),
    )


# When a record agrees with a table


def IsRunning(m: int, crew: Crew, holds: Holds, p: Process) -> bool:
    """Of the master's workers none is Starting, and each Ready one is of the crew's generation and holds its share of
    what the master holds."""
    if not isinstance(p, Worker) or p.parent != m:
        return True
    if p.stance is Stance.Ready:
        return p.generation == crew.generation and p.holds == shared(fds_of(crew.posts, p.nr), holds)
    return p.stance is not Stance.Starting


def oldbin(path: FilePath) -> FilePath:
    return path + ".oldbin"


def FilesAre(note: PidNote, path: FilePath | None, pid: int, files: tuple[File, ...]) -> bool:
    """The files are as the note says. If the master's file is at the path with the suffix, a stale file may be at the
    path itself."""
    if path is None:
        return note is PidNote.NoFile
    match note:
        case PidNote.InPlace:
            return owner_at(path, files) == pid and owner_at(oldbin(path), files) is None
        case PidNote.AtOldbin:
            return owner_at(oldbin(path), files) == pid
        case PidNote.OldbinLeft:
            return owner_at(path, files) == pid and owner_at(oldbin(path), files) is not None
        case _:
            return False


def Agrees(t: Table, r: Record) -> bool:
    """One master row, live, with the record's image and process number, its descriptors the record's, its Ready
    workers exactly the record's, and the files as the note says."""
    master = live_master(r.generation.image, t.rows)
    if master is None or master.number != r.pid:
        return False
    named = partial(is_worker, partial(same_stance, Stance.Ready), r.pid, r.generation)
    # (a number that no worker bears and that is not ready agrees)
    borne = {p.nr for p in t.rows if isinstance(p, Worker)} | set(r.ready)
    return (
        sum(map(is_master, t.rows)) == 1
        and tuple(Listener(h.fd, h.address) for h in master.holds) == r.listeners
        and all(IsRunning(r.pid, crew_of(r), master.holds, p) for p in t.rows)
        and all(any(named(k, p) for p in t.rows) == is_in(r.ready, k) for k in borne)
        and FilesAre(r.note, r.pid_path, r.pid, t.files)
    )


# What a target changes


def reload_generation(g: Generation) -> Generation:
    """A reload's workers are of the next configuration."""
    return Generation(g.image, g.config + 1)


def upgrade_generation(g: Generation) -> Generation:
    """An upgrade's are of the next image too."""
    return Generation(g.image + 1, g.config + 1)


def has_next(n: int) -> bool:
    """Image and config numbers end at 4,294,967,295."""
    return n < 4294967295


# The service that is wanted


def addresses_wanted(r: Record, target: Target) -> Addresses:
    match target:
        case Reload(s) | Upgrade(s) | Attended(s):
            return s.listeners
        case Stop():
            return ()
        case _:
            return addresses_of(r)


def generation_wanted(r: Record, target: Target) -> Generation:
    match target:
        case Reload():
            return reload_generation(r.generation)
        case Upgrade() | Attended():
            return upgrade_generation(r.generation)
        case _:
            return r.generation


def numbers_wanted(r: Record, target: Target) -> Numbers:
    """The worker numbers that are wanted. A reopening wants those that are ready."""
    match target:
        case Workers(n):
            return numbers_below(n)
        case Mend():
            return numbers_below(r.wanted)
        case Reopen():
            return r.ready
        case Reload(s) | Upgrade(s) | Attended(s):
            return numbers_below(s.workers)
        case Stop():
            return ()


def layout_wanted(r: Record, target: Target) -> Layout:
    """Which groups there are then, and which listens where."""
    match target:
        case Reload(s) | Upgrade(s) | Attended(s):
            return layout_in(s.groups, s.listeners)
        case _:
            return layout_of(r)


def wanted_at(r: Record, target: Target, a: Address) -> int:
    """How many workers a target wants at an address: the numbers of its group."""
    return served(layout_wanted(r, target), numbers_wanted(r, target), a)


def want(r: Record, target: Target) -> Service:
    """At each of its addresses the workers of its group, of one generation."""
    return serving(addresses_wanted(r, target), generation_wanted(r, target), lambda a: wanted_at(r, target, a))


def sides_of(r: Record, target: Target) -> Sides:
    return Sides(r.posts.groups, layout_wanted(r, target).groups)


# What a new master is handed


def handover_of(r: Record, s: Settings) -> Handover:
    return Handover(
        old_pid=r.pid,
        generation=upgrade_generation(r.generation),
        listeners=r.listeners,
        want=s.listeners,
        groups=s.groups,
        pid_file=r.pid_path,
    )


def handover_for(r: Record, target: Target) -> Handed:
    """What goes with each call of a plan."""
    match target:
        case Upgrade(s) | Attended(s):
            return handover_of(r, s)
        case _:
            return None

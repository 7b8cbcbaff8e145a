"""What exits and calls change in the table, and what each call is answered (Calls.antt).

What the definitions write as a function with its first arguments is `partial` here, and `gives` is Stepped itself."""
from collections.abc import Callable
from functools import partial
from typing import NamedTuple

from reader import names as name
from reader.addresses import Addresses, FilePath
from reader.groups import Groups
from reader.names import Name
from reader.numbers import Numbers, is_in
from reader.table import (
    Caller, File, Foreign, Hold, Holds, Master, Process, Rows, Table, Worker, bears, is_active, is_held, is_live_where,
    is_master, is_own, is_worker, is_worker_where, live_master, number_of, owner_at, same_stance,
)
from reader.vocabulary import (
    Adopt, Alive, Answer, AnyAnswer, Ask, AwaitGone, AwaitReady, Call, Census, CloseAt, Counted, Fate, Fork,
    Generation, Kill, Leave, Listeners, MovePid, OpenAt, Opened, Quit, RemovePid, SpawnMaster, Stance, TermMaster,
    Usr1, WritePid,
)

# Exits, one after another


def change(test: Callable[[Process], bool], f: Callable[[Process], Process], p: Process) -> Process:
    """What becomes of a row that passes the test; the others stay."""
    return f(p) if test(p) else p


def with_stance(stance: Stance, p: Process) -> Process:
    """A worker in this stance; one that drains or has exited holds nothing."""
    if not isinstance(p, Worker):
        return p
    return Worker(p.number, p.parent, p.generation, p.nr, stance, p.holds if is_active(stance) else ())


def first_changed(test: Callable[[Process], bool], f: Callable[[Process], Process], rows: Rows) -> Rows:
    for place, p in enumerate(rows):
        if test(p):
            return (*rows[:place], f(p), *rows[place + 1:])
    return rows


def without_exited(gone: int, lives: Callable[[int], bool], p: Process) -> Process | None:
    """What becomes of a row where the live master with the number exits: its own row stays, exited and without holds,
    where its parent is a live master, and leaves otherwise; its workers leave; a master whose parent it was gets
    parent 1."""
    if isinstance(p, Master):
        if p.number == gone:
            return Master(p.number, p.parent, p.image, False, ()) if lives(p.parent) else None
        return Master(p.number, 1 if p.parent == gone else p.parent, p.image, p.live, p.holds)
    if isinstance(p, Worker):
        return None if p.parent == gone else p
    return p


def exited(e: Name, rows: Rows) -> Rows:
    """A Starting or Ready worker becomes Exited; or the Draining worker of the name with the lowest process number
    does; or the live master of the image exits, with its workers."""

    def lives(q: int) -> bool:
        return any(is_live_where(lambda m, _: m == q, p) for p in rows)

    exits = partial(with_stance, Stance.Exited)
    match e:
        case name.Worker(g, k):
            test = partial(is_worker_where, is_active, lambda n: True, partial(bears, g, k))
            return tuple(change(test, exits, p) for p in rows)
        case name.Draining(g, k):
            drains = partial(same_stance, Stance.Draining)
            return first_changed(partial(is_worker_where, drains, lambda n: True, partial(bears, g, k)), exits, rows)
        case name.Master(image):
            c = live_master(image, rows)
            if c is None:
                return rows
            left = (without_exited(c.number, lives, p) for p in rows)
            return tuple(p for p in left if p is not None)


def all_exited(es: tuple[Name, ...], rows: Rows) -> Rows:
    for e in es:
        rows = exited(e, rows)
    return rows


def after_exits(es: tuple[Name, ...], t: Table) -> Table:
    """The table after the exits of a moment."""
    return t._replace(rows=all_exited(es, t.rows))


def is_active_worker(p: Process) -> bool:
    return isinstance(p, Worker) and is_active(p.stance)


def losses_of(es: tuple[Name, ...], t: Table) -> int:
    """The losses: how many Starting or Ready workers the exits end, an exiting master's included."""
    return max(0, sum(map(is_active_worker, t.rows)) - sum(map(is_active_worker, all_exited(es, t.rows))))


# What a call is answered, and the table then


class Stepped(NamedTuple):
    answer: AnyAnswer
    table: Table


def each_row(f: Callable[[Process], Process | None], t: Table) -> Table:
    """A table with what each row becomes."""
    return t._replace(rows=tuple(row for row in map(f, t.rows) if row is not None))


def drop_where(test: Callable[[Process], bool], p: Process) -> Process | None:
    """A row that passes the test leaves."""
    return None if test(p) else p


# Descriptors


def free_from(n: int, fd: int, hs: Holds) -> int:
    """The lowest descriptor from fd on that is free, looked for among n, and one more."""
    while n and any(h.fd == fd for h in hs):
        n, fd = n - 1, fd + 1
    return fd


def lowest_free(hs: Holds) -> int:
    """The lowest descriptor from 3 on that is free."""
    return free_from(len(hs), 3, hs)


def put_hold(h: Hold, hs: Holds) -> Holds:
    """A hold at its place among ascending descriptors."""
    place = next((i for i, x in enumerate(hs) if h.fd < x.fd), len(hs))
    return (*hs[:place], h, *hs[place:])


def with_holds(f: Callable[[Holds], Holds], p: Process) -> Process:
    match p:
        case Master(n, q, i, live, hs):
            return Master(n, q, i, live, f(hs))
        case Worker(n, q, g, k, s, hs):
            return Worker(n, q, g, k, s, f(hs))
        case Foreign(n, hs):
            return Foreign(n, f(hs))


def is_of(caller: int, p: Process) -> bool:
    """The caller or one of its workers."""
    return (isinstance(p, Master) and p.number == caller) or (isinstance(p, Worker) and p.parent == caller)


# Workers


def has_process_room(t: Table) -> bool:
    return sum(map(is_own, t.rows)) < t.limits.processes


def with_new_row(t: Table, row: Callable[[int], Process]) -> Table:
    return t._replace(rows=(*t.rows, row(t.next_process)), next_process=t.next_process + 1)


def shared(fds: Numbers | None, hs: Holds) -> Holds:
    """The holds that a worker is given: those of these descriptors, or all."""
    return hs if fds is None else tuple(h for h in hs if is_in(fds, h.fd))


def census_of(caller: int, g: Generation, rows: Rows) -> Numbers:
    """The numbers that a Ready worker of the caller bears in the generation; worker numbers are below 1024."""
    # (the rows are looked through once, and not for each number)
    is_ready = partial(same_stance, Stance.Ready)
    borne = {p.nr for p in rows if isinstance(p, Worker) and is_worker(is_ready, caller, g, p.nr, p)}
    return tuple(sorted(k for k in borne if k < 1024))


def is_exited_of(caller: int, p: Process) -> bool:
    return isinstance(p, Worker) and same_stance(Stance.Exited, p.stance) and p.parent == caller


# Masters


def is_image(image: int, p: Process) -> bool:
    """A master of the image, live or exited."""
    return isinstance(p, Master) and p.image == image


def is_of_image(image: int, rows: Rows, p: Process) -> bool:
    """A master of the image or one of its workers."""
    if isinstance(p, Worker):
        return any(is_image(image, row) and number_of(row) == p.parent for row in rows)
    return is_image(image, p)


class Handover(NamedTuple):
    """What an old master tells a new one: its process number, the generation that is to run, its listeners in ascending
    descriptors, the addresses that are wanted, the groups of workers, each of which takes its number of these
    addresses, the next ones, and the pid file."""

    old_pid: int
    generation: Generation
    listeners: Listeners
    want: Addresses
    groups: Groups
    pid_file: FilePath | None


# What a new master is handed: a handover, or something that is not one.
Handed = Handover | None


def are_listeners(ls: Listeners, hs: Holds) -> bool:
    """The descriptors and addresses of these holds, and no other."""
    return len(ls) == len(hs) and all(l.descriptor == h.fd and l.address == h.address for l, h in zip(ls, hs))


def suits(handed: Handed, image: int, holds: Holds) -> bool:
    """What is handed is a handover to the image, with exactly the descriptors and addresses of these holds."""
    return handed is not None and handed.generation.image == image and are_listeners(handed.listeners, holds)


# Files


def with_file(path: FilePath, owner: int, files: tuple[File, ...]) -> tuple[File, ...]:
    """A file's number in its place, or a file more."""
    place = next((i for i, f in enumerate(files) if f.path == path), len(files))
    return (*files[:place], File(path, owner), *files[place + 1:])


def without_file(path: FilePath, files: tuple[File, ...]) -> tuple[File, ...]:
    return tuple(f for f in files if f.path != path)


# The order in a call


def own_step(handed: Handed, image: int, c: Caller, call: Call, t: Table) -> Stepped:
    """What a live caller of this image is answered where no fate interferes; `handed` is what it was handed.

    Here it is in three functions, in the order of the definition: the calls about addresses, those about workers, and
    the others."""
    match call:
        case OpenAt(a):
            # A new socket of the address, unless a process holds the address or the caller is at its limit of
            # descriptors.
            if is_held(a, t.rows):
                return Stepped(Answer.InUse, t)
            if not len(c.holds) < t.limits.descriptors:
                return Stepped(Answer.TooMany, t)
            hold = Hold(lowest_free(c.holds), t.next_socket, a)
            takes = partial(with_holds, partial(put_hold, hold))
            holding = each_row(partial(change, lambda p: is_master(p) and number_of(p) == c.number, takes), t)
            return Stepped(Opened(hold.fd), holding._replace(next_socket=t.next_socket + 1))
        case CloseAt(a):
            # The caller and its workers lose their holds of the address.
            loses = partial(with_holds, lambda hs: tuple(h for h in hs if h.address != a))
            return Stepped(Answer.Fine, each_row(partial(change, partial(is_of, c.number), loses), t))
        case _:
            return own_step_of_workers(handed, image, c, call, t)


def own_step_of_workers(handed: Handed, image: int, c: Caller, call: Call, t: Table) -> Stepped:
    """(own_step, of the calls about workers)"""
    match call:
        case Fork(g, k, fds):
            # A new Starting worker with the caller's holds under these descriptors, or all of them, unless an active
            # worker of the caller bears the name or the process limit is reached.
            if any(map(partial(is_worker, is_active, c.number, g, k), t.rows)) or not has_process_room(t):
                return Stepped(Answer.Again, t)
            holds = shared(fds, c.holds)
            return Stepped(Answer.Forked, with_new_row(t, lambda n: Worker(n, c.number, g, k, Stance.Starting, holds)))
        case AwaitReady(g, k):
            # A Starting worker of the name becomes Ready; one that is Ready stays so; else the Exited ones of the name
            # leave.
            if any(map(partial(is_worker, is_active, c.number, g, k), t.rows)):
                starts = partial(is_worker, partial(same_stance, Stance.Starting), c.number, g, k)
                return Stepped(Answer.IsReady, each_row(partial(change, starts, partial(with_stance, Stance.Ready)), t))
            has_exited = partial(is_worker, partial(same_stance, Stance.Exited), c.number, g, k)
            return Stepped(Answer.Gone, each_row(partial(drop_where, has_exited), t))
        case Quit(g, k):
            # The active worker of the name drains and holds nothing.
            serves = partial(is_worker, is_active, c.number, g, k)
            return Stepped(Answer.Fine, each_row(partial(change, serves, partial(with_stance, Stance.Draining)), t))
        case Kill(g, k):
            # All workers of the name leave, in any stance.
            return Stepped(
                Answer.Fine, each_row(partial(drop_where, partial(is_worker, lambda s: True, c.number, g, k)), t)
            )
        case Census(g):
            # The numbers of the caller's Ready workers; its Exited ones of every generation leave.
            left = each_row(partial(drop_where, partial(is_exited_of, c.number)), t)
            return Stepped(Counted(census_of(c.number, g, t.rows)), left)
        case AwaitGone(g, k):
            # Late while an active worker bears the name; else all of the name leave, and it is gone.
            if any(map(partial(is_worker, is_active, c.number, g, k), t.rows)):
                return Stepped(Answer.Late, t)
            return Stepped(
                Answer.Gone, each_row(partial(drop_where, partial(is_worker, lambda s: True, c.number, g, k)), t)
            )
        case _:
            return own_step_of_masters(handed, image, c, call, t)


def own_step_of_masters(handed: Handed, image: int, c: Caller, call: Call, t: Table) -> Stepped:
    """(own_step, of the others)"""
    match call:
        case SpawnMaster(i):
            # A new master with the caller's holds, unless a master of the image is there or the process limit is
            # reached.
            if any(map(partial(is_image, i), t.rows)) or not has_process_room(t):
                return Stepped(Answer.Again, t)
            return Stepped(Answer.Spawned, with_new_row(t, lambda n: Master(n, c.number, i, True, c.holds)))
        case Adopt():
            # What it was handed must suit; nothing changes.
            return Stepped(Answer.Adopted if suits(handed, image, c.holds) else Answer.Refused, t)
        case WritePid(path):
            # The file has the caller's process number.
            return Stepped(Answer.Fine, t._replace(files=with_file(path, c.number, t.files)))
        case MovePid(source, to):
            # The second path has the number of the first, which is gone; a fault where the first isn't there.
            owner = owner_at(source, t.files)
            if owner is None:
                return Stepped(Answer.IoFault, t)
            return Stepped(Answer.Fine, t._replace(files=with_file(to, owner, without_file(source, t.files))))
        case RemovePid(path):
            # The file is gone, also where it wasn't there.
            return Stepped(Answer.Fine, t._replace(files=without_file(path, t.files)))
        case Alive(i):
            # Where no live master is of the image, an exited one leaves.
            if live_master(i, t.rows) is not None:
                return Stepped(Answer.IsAlive, t)
            return Stepped(Answer.Gone, each_row(partial(drop_where, partial(is_image, i)), t))
        case Leave():
            # The caller leaves, with its workers, as it would by an exit of which nobody hears.
            return Stepped(Answer.Fine, each_row(partial(without_exited, c.number, lambda parent: False), t))
        case TermMaster(i):
            # The master of the image leaves, live or exited, and its workers do.
            return Stepped(Answer.Fine, each_row(partial(drop_where, partial(is_of_image, i, t.rows)), t))
        case Usr1():
            # A worker is told to reopen its logs, or the operator is asked; nothing changes.
            return Stepped(Answer.Fine, t)
        case Ask():
            return Stepped(Answer.Go, t)
        case _:
            raise ValueError(call)


def fault_of(c: Caller, call: Call, f: Fate, t: Table) -> Answer | None:
    """The answer that a fate gives at a call, if the fate is one of the call's and its condition holds."""
    match call, f:
        case OpenAt(), Fate.InUse | Fate.TooMany | Fate.Denied | Fate.NoMemory:
            return Answer(f.value)
        case Fork(), Fate.Again | Fate.NoMemory:
            return Answer(f.value)
        case AwaitReady(g, k), Fate.Late:
            starts = partial(is_worker, partial(same_stance, Stance.Starting), c.number, g, k)
            return Answer.Late if any(map(starts, t.rows)) else None
        case AwaitGone(g, k), Fate.Late:
            drains = partial(is_worker, partial(same_stance, Stance.Draining), c.number, g, k)
            return Answer.Late if any(map(drains, t.rows)) else None
        case SpawnMaster(), Fate.Again | Fate.NoMemory | Fate.NoImage:
            return Answer(f.value)
        case Adopt(), Fate.Refused:
            return Answer.Refused
        case WritePid() | MovePid() | RemovePid(), Fate.IoFault:
            return Answer.IoFault
        case Ask(), Fate.Back:
            return Answer.Back
        case _:
            return None


def step_by(handed: Handed, image: int, c: Caller | None, call: Call, f: Fate | None, t: Table) -> Stepped:
    if c is None:
        return Stepped(Answer.MasterGone, t)
    fault = None if f is None else fault_of(c, call, f, t)
    return own_step(handed, image, c, call, t) if fault is None else Stepped(fault, t)


def step_with(handed: Handed, image: int, call: Call, f: Fate | None, t: Table) -> Stepped:
    """A call by the master of an image. Where that master is not live: master-gone, and nothing changes. Else, where
    the fate gives an answer: that one, and nothing changes. Else the call's own answer."""
    return step_by(handed, image, live_master(image, t.rows), call, f, t)

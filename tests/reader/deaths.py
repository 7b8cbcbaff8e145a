"""The death of a master: what a start on what is left results in, where somebody else's process keeps the sockets
(lives/specs/Deaths.antt).

The deaths of a life are looked at one after another in living.py: `Throughout` is that loop."""
from reader.addresses import Address, Addresses, FilePath
from reader.calls import with_file
from reader.claims import distinct
from reader.lives import IsStanding, Life, is_healing, is_open, quietly
from reader.master import Record, layout_in, oldbin, served
from reader.numbers import numbers_below
from reader.settings import Settings
from reader.start import started
from reader.table import (
    File, Foreign, Hold, Holds, IsSame, Master, Process, Rows, Table, live_master, owner_at, service, serving,
)
from reader.vocabulary import Generation, PidNote

# Sockets that somebody else's process keeps


def socket_in(a: Address, hs: Holds) -> int | None:
    """The first socket of the address that such a process holds."""
    return next((h.socket for h in hs if h.address == a), None)


def kept_socket(a: Address, rows: Rows) -> int | None:
    """That of the last one in the table."""
    found = [socket_in(a, p.holds) for p in rows if isinstance(p, Foreign)]
    return next((socket for socket in reversed(found) if socket is not None), None)


def AreAllKept(addresses: Addresses, t: Table) -> bool:
    return all(kept_socket(a, t.rows) is not None for a in addresses)


def holds_of_image(image: int, rows: Rows) -> Holds:
    """What the live master of an image holds."""
    caller = live_master(image, rows)
    return () if caller is None else caller.holds


def lent(r: Record, t: Table) -> Table:
    """A process more, of somebody else, that is lent the sockets of the record's master."""
    row = Foreign(t.next_process, holds_of_image(r.generation.image, t.rows))
    return t._replace(rows=(*t.rows, row), next_process=t.next_process + 1)


# A start on what is left


def is_foreign(p: Process) -> bool:
    return isinstance(p, Foreign)


def sockets_taken(fd: int, addresses: Addresses, rows: Rows) -> Holds:
    """These addresses in order, from a descriptor on, each on the socket that is kept."""
    return tuple(Hold(fd + place, kept_socket(a, rows) or 0, a) for place, a in enumerate(addresses))


def pid_file_written(path: FilePath | None, owner: int, files: tuple[File, ...]) -> tuple[File, ...]:
    return files if path is None else with_file(path, owner, files)


def note_there(path: FilePath | None, files: tuple[File, ...]) -> PidNote:
    """A stale file may be at the path with the suffix."""
    if path is None:
        return PidNote.NoFile
    return PidNote.InPlace if owner_at(oldbin(path), files) is None else PidNote.OldbinLeft


def restarted(s: Settings, g: Generation, t: Table) -> Table:
    """Whoever of old masters and workers is left is ended; a new master of this generation's image takes the sockets of
    its addresses, and writes the pid file. It has no worker yet, and the generation may be any."""
    row = Master(t.next_process, 1, g.image, True, sockets_taken(3, s.listeners, t.rows))
    return t._replace(
        rows=(*filter(is_foreign, t.rows), row),
        files=pid_file_written(s.pid, t.next_process, t.files),
        next_process=t.next_process + 1,
    )


def restarted_record(s: Settings, g: Generation, t: Table) -> Record:
    record = started(s, s.workers, (), t.next_process)
    return record._replace(generation=g, note=note_there(s.pid, t.files))


# What is promised


def AreOpenIn(s: Settings, first: Table, u: Table) -> bool:
    """The new master holds each address on the socket that was kept in the first table."""
    kept = {a: kept_socket(a, first.rows) for a in s.listeners}
    return all(is_open(a, socket, u) for a, socket in kept.items() if socket is not None)


def are_kept_still(s: Settings, first: Table, left: Table) -> bool:
    """The very same sockets are kept. (Of the addresses that the settings and the first table name.)"""
    addresses = {*s.listeners, *(h.address for p in first.rows for h in p.holds)}
    return all(kept_socket(a, left.rows) == kept_socket(a, first.rows) for a in addresses)


def heals(s: Settings, g: Generation, first: Table, left: Table) -> bool:
    """Where there is room for the processes, one quiet tick brings the service of the settings in full, with each
    address open at every call of it."""
    if 1 + s.workers > left.limits.processes:
        return True
    u, r = restarted(s, g, left), restarted_record(s, g, left)
    ran, layout = quietly(u, r, ()), layout_in(s.groups, s.listeners)
    full = serving(s.listeners, g, lambda a: served(layout, numbers_below(s.workers), a))
    passed = [p.table for p in distinct(ran.passed)]
    is_whole = IsSame(service(ran.last.table), full)
    return is_healing(r, (), ran) and is_whole and all(AreOpenIn(s, first, t) for t in passed)


def CanTakeOver(s: Settings, g: Generation, first: Table, left: Table) -> dict[str, bool]:
    """From the first table, a master that is started with these settings on what is left in a later one."""
    u, r = restarted(s, g, left), restarted_record(s, g, left)
    return {
        "kept": are_kept_still(s, first, left),
        "standing": IsStanding(u, r),
        "opened": AreOpenIn(s, first, u),
        "heals": heals(s, g, first, left),
    }


def IsLent(t: Table, r: Record) -> bool:
    """At a standing somebody else's process can be lent the master's sockets: the record stays true, and each of its
    addresses is kept, on the master's own socket."""
    u, holds = lent(r, t), holds_of_image(r.generation.image, t.rows)
    own = all(kept_socket(h.address, u.rows) == socket_in(h.address, holds) for h in holds)
    return IsStanding(u, r) and AreAllKept(tuple(l.address for l in r.listeners), u) and own


def StaysKept(a: Address, socket: int, life: Life) -> bool:
    """An address that each service names, and that somebody else keeps on the master's socket at first: it is open on
    that socket at each standing, and kept on it in every table of every run."""
    tables = [p.table for x in life.runs for p in distinct(x.ran.passed)]
    stands = all(is_open(a, socket, s.table) for s in life.stands)
    return stands and all(kept_socket(a, t.rows) == socket for t in tables)

"""How a kernel starts with a master (call_laws/specs/Start.antt)."""
from reader.addresses import Addresses, FilePath
from reader.crews import Posts, first_posts
from reader.groups import Groups
from reader.master import Agrees, Record
from reader.numbers import Numbers, numbers_below
from reader.pieces import share
from reader.settings import Settings, listeners_from
from reader.table import File, Hold, Holds, Master, Process, Rows, Table, Worker
from reader.vocabulary import Generation, Limits, PidNote, Stance


def first_note(path: FilePath | None) -> PidNote:
    return PidNote.NoFile if path is None else PidNote.InPlace


first_generation = Generation(1, 1)


def started(s: Settings, wanted: int, ready: Numbers, pid: int) -> Record:
    """The record of a master that starts with these settings: generation 1.1, descriptors from 3 on, of which each
    group takes its number, the next ones."""
    return Record(
        listeners=listeners_from(3, s.listeners),
        posts=first_posts(s.groups),
        generation=first_generation,
        ready=ready,
        wanted=wanted,
        retries=s.retries,
        timeout=s.timeout,
        pid_path=s.pid,
        note=first_note(s.pid),
        pid=pid,
    )


def holds_from(fd: int, socket: int, addresses: Addresses) -> Holds:
    """A socket for each address in order, from a descriptor and a socket number on."""
    return tuple(Hold(fd + place, socket + place, a) for place, a in enumerate(addresses))


def first_worker(posts: Posts, holds: Holds, k: int) -> Process:
    return Worker(101 + k, 100, first_generation, k, Stance.Ready, share(posts, k, holds))


def first_rows(posts: Posts, holds: Holds, workers: int) -> Rows:
    return (Master(100, 1, 1, True, holds), *(first_worker(posts, holds, k) for k in numbers_below(workers)))


def first_files(path: FilePath | None) -> tuple[File, ...]:
    return () if path is None else (File(path, 100),)


def booted(listeners: Addresses, groups: Groups, workers: int, pid_file: FilePath | None, limits: Limits) -> Table:
    """The master of image 1 with the listeners from descriptor 3 on, its Ready workers from number 0 on, each with its
    group's share, and the pid file."""
    return Table(
        rows=first_rows(first_posts(groups), holds_from(3, 1, listeners), workers),
        files=first_files(pid_file),
        next_process=101 + workers,
        next_socket=len(listeners) + 1,
        limits=limits,
    )


def StartsAgree(s: Settings, wanted: int, workers: int, limits: Limits) -> bool:
    """What the master of process 100 that starts with some settings knows of itself is so, however many workers run
    and are wanted."""
    table = booted(s.listeners, s.groups, workers, s.pid, limits)
    return Agrees(table, started(s, wanted, numbers_below(workers), 100))

"""The plain types that the definitions speak of (listener_set, vocabulary): generations, stances, calls, answers,
fates, replies, ends, notes, outcomes, entries, reports, lacks, turns. What is written of one is its value."""
from dataclasses import dataclass
from enum import Enum
from typing import NamedTuple

from reader.addresses import Address, FilePath
from reader.numbers import Numbers


class Generation(NamedTuple):
    image: int
    config: int


class Stance(Enum):
    Starting = "starting"
    Ready = "ready"
    Draining = "draining"
    Exited = "exited"


class Limits(NamedTuple):
    processes: int
    descriptors: int


class Listener(NamedTuple):
    descriptor: int
    address: Address


Listeners = tuple[Listener, ...]


@dataclass(frozen=True, slots=True)
class OpenAt:
    address: Address


@dataclass(frozen=True, slots=True)
class CloseAt:
    address: Address


@dataclass(frozen=True, slots=True)
class Fork:
    generation: Generation
    nr: int
    fds: Numbers | None


@dataclass(frozen=True, slots=True)
class AwaitReady:
    generation: Generation
    nr: int


@dataclass(frozen=True, slots=True)
class Quit:
    generation: Generation
    nr: int


@dataclass(frozen=True, slots=True)
class Kill:
    generation: Generation
    nr: int


@dataclass(frozen=True, slots=True)
class Census:
    generation: Generation


@dataclass(frozen=True, slots=True)
class AwaitGone:
    generation: Generation
    nr: int


@dataclass(frozen=True, slots=True)
class SpawnMaster:
    image: int


@dataclass(frozen=True, slots=True)
class Adopt:
    pass


@dataclass(frozen=True, slots=True)
class WritePid:
    path: FilePath


@dataclass(frozen=True, slots=True)
class MovePid:
    source: FilePath
    to: FilePath


@dataclass(frozen=True, slots=True)
class RemovePid:
    path: FilePath


@dataclass(frozen=True, slots=True)
class Alive:
    image: int


@dataclass(frozen=True, slots=True)
class Leave:
    pass


@dataclass(frozen=True, slots=True)
class Usr1:
    generation: Generation
    nr: int


@dataclass(frozen=True, slots=True)
class TermMaster:
    image: int


@dataclass(frozen=True, slots=True)
class Ask:
    question: int


Call = (
    OpenAt | CloseAt | Fork | AwaitReady | Quit | Kill | Census | AwaitGone | SpawnMaster | Adopt | WritePid | MovePid
    | RemovePid | Alive | Leave | Usr1 | TermMaster | Ask
)


class Fate(Enum):
    InUse = "in-use"
    TooMany = "too-many"
    Denied = "denied"
    NoMemory = "no-memory"
    Again = "again"
    Late = "late"
    NoImage = "no-image"
    Refused = "refused"
    IoFault = "io-fault"
    Back = "back"


class Answer(Enum):
    """The answers without a value; the others are Opened and Counted."""

    InUse = "in-use"
    TooMany = "too-many"
    Denied = "denied"
    NoMemory = "no-memory"
    Fine = "ok"
    Forked = "forked"
    Again = "again"
    IsReady = "ready"
    Gone = "gone"
    Late = "late"
    Spawned = "spawned"
    NoImage = "no-image"
    Adopted = "adopted"
    Refused = "refused"
    IoFault = "io-fault"
    IsAlive = "alive"
    Go = "go"
    Back = "back"
    MasterGone = "master-gone"


class Opened(NamedTuple):
    fd: int


class Counted(NamedTuple):
    numbers: Numbers


AnyAnswer = Answer | Opened | Counted


class Reply(Enum):
    Opened = "opened"
    InUse = "in-use"
    TooMany = "too-many"
    Denied = "denied"
    NoMemory = "no-memory"
    Fine = "ok"
    Forked = "forked"
    Again = "again"
    IsReady = "ready"
    Gone = "gone"
    Late = "late"
    Full = "full"
    Short = "short"
    Spawned = "spawned"
    NoImage = "no-image"
    Adopted = "adopted"
    Refused = "refused"
    IoFault = "io-fault"
    IsAlive = "alive"
    Go = "go"
    Back = "back"
    MasterGone = "master-gone"


class Side(Enum):
    Old = "old"
    Target = "target"


class End(Enum):
    Done = 0
    RolledBack = 1
    ShortOld = 2
    ShortTarget = 3
    Split = 4
    JoinReady = 5
    JoinBack = 6
    Join = 7


class PidNote(Enum):
    InPlace = "in-place"
    AtOldbin = "at-oldbin"
    OldbinLeft = "oldbin-left"
    Left = "left"
    NoFile = "no-file"


class Outcome(Enum):
    """The outcomes without a value; the other is Degraded."""

    Done = "done"
    RolledBack = "rolled-back"
    Lost = "lost"


class Degraded(NamedTuple):
    side: Side
    shortfalls: Numbers


AnyOutcome = Outcome | Degraded


class Entry(NamedTuple):
    by: int
    call: Call
    answer: AnyAnswer


Entries = tuple[Entry, ...]


class Report(NamedTuple):
    outcome: AnyOutcome
    cause: int | None
    note: PidNote
    ready: Numbers


class Lack(NamedTuple):
    """What the last count of a master lacked."""

    by: int
    numbers: Numbers


Lacks = tuple[Lack, ...]


class Turn(Enum):
    New = "n"
    Old = "o"

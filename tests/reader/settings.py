"""What a configuration says (vocabulary/specs/Settings.antt)."""
from typing import NamedTuple

from reader.addresses import Address, FilePath
from reader.groups import AreGroups, Group, Groups, addresses_in, workers_in
from reader.vocabulary import Listener


class Settings(NamedTuple):
    listeners: tuple[Address, ...]
    workers: int
    groups: Groups
    timeout: int
    retries: int
    surge: int
    pid: FilePath | None


def HasSuffixRoom(path: FilePath | None) -> bool:
    return path is None or len(path) <= 100


def IsInRange(s: Settings) -> bool:
    return (
        1 <= len(s.listeners)
        and s.workers <= 1024
        and AreGroups(s.groups)
        and addresses_in(s.groups) == len(s.listeners)
        and workers_in(s.groups) == s.workers
        and 1 <= s.timeout <= 86400
        and s.retries <= 8
        and s.surge <= 1024
        and HasSuffixRoom(s.pid)
    )


plain_settings = Settings(("0.0.0.0:8080",), 1, (Group(1, 1),), 60, 3, 0, None)


def listeners_from(fd: int, addresses: tuple[Address, ...]) -> tuple[Listener, ...]:
    """Addresses in order, from a descriptor on."""
    return tuple(Listener(fd + place, a) for place, a in enumerate(addresses))

"""Groups of workers (worker_groups/specs/Groups.antt): each takes its number of a service's addresses and of its worker
numbers, the next ones."""
from typing import NamedTuple


class Group(NamedTuple):
    addresses: int
    workers: int


Groups = tuple[Group, ...]


def addresses_in(gs: Groups) -> int:
    return sum(g.addresses for g in gs)


def workers_in(gs: Groups) -> int:
    return sum(g.workers for g in gs)


def part_of(sizes: tuple[int, ...], n: int) -> int:
    """The part that a number falls into, where parts of these sizes take the next numbers each; from their sum on it is
    the last one."""
    if len(sizes) <= 1:
        return 0
    return 0 if n < sizes[0] else part_of(sizes[1:], n - sizes[0]) + 1


def group_of(gs: Groups, number: int) -> int:
    """A worker number's group."""
    return part_of(tuple(g.workers for g in gs), number)


def AreGroups(gs: Groups) -> bool:
    """1 to 16 groups, each with an address, and at most 64 addresses and 1024 workers in all."""
    return (
        1 <= len(gs) <= 16
        and all(1 <= g.addresses for g in gs)
        and addresses_in(gs) <= 64
        and workers_in(gs) <= 1024
    )

"""Where the workers of each group listen, and how many of each group are lacking (worker_groups/specs/Crews.antt)."""
from typing import NamedTuple

from reader.groups import Groups, group_of
from reader.numbers import Numbers, numbers_below
from reader.vocabulary import Generation


class Posts(NamedTuple):
    """The groups of a service, and the descriptors of each."""

    groups: Groups
    descriptors: tuple[Numbers, ...]


class Crew(NamedTuple):
    """The workers of one generation."""

    generation: Generation
    posts: Posts


def is_sole(p: Posts) -> bool:
    return len(p.groups) == 1


def fds_in(p: Posts, place: int) -> Numbers | None:
    """The descriptors of a group's workers; no set where there is one group alone."""
    if is_sole(p):
        return None
    return p.descriptors[place] if place < len(p.descriptors) else ()


def fds_of(p: Posts, number: int) -> Numbers | None:
    return fds_in(p, group_of(p.groups, number))


def descriptors_from(first: int, count: int) -> Numbers:
    return tuple(range(first, first + count))


def descriptors_first(fd: int, gs: Groups) -> tuple[Numbers, ...]:
    """Each group takes its number of descriptors, the next ones."""
    if not gs:
        return ()
    return (descriptors_from(fd, gs[0].addresses), *descriptors_first(fd + gs[0].addresses, gs[1:]))


def first_posts(gs: Groups) -> Posts:
    """The posts of a master that starts: from descriptor 3 on."""
    return Posts(gs, descriptors_first(3, gs))


def shortfalls_of(gs: Groups, lacking: Numbers) -> Numbers:
    """How many of the numbers that are lacking are of each group."""
    return tuple(sum(group_of(gs, number) == place for number in lacking) for place in numbers_below(len(gs)))

"""Sets of numbers, as their ascending tuples (listener_set/specs/Numbers.antt)."""
from collections.abc import Iterable

Numbers = tuple[int, ...]


def numbers_below(n: int) -> Numbers:
    return tuple(range(n))


def is_in(ns: Iterable[int], k: int) -> bool:
    return k in ns


def lacks(ns: Iterable[int], others: Iterable[int]) -> Numbers:
    """What the first set has and the second lacks."""
    return tuple(k for k in ns if not is_in(others, k))


def first_from(bound: int, ns: Iterable[int]) -> int | None:
    """The lowest number of a set that is at least a bound."""
    return next((k for k in ns if bound <= k), None)


def RisesFrom(bound: int, ns: Iterable[int]) -> bool:
    """Each number is at least the bound, and above the one before it."""
    for n in ns:
        if n < bound:
            return False
        bound = n + 1
    return True


def IsRising(ns: Iterable[int]) -> bool:
    return RisesFrom(0, ns)

"""Addresses and paths (listener_set/specs/AddressList.antt). A list of bytes is a Python text here."""
from collections.abc import Iterable

Address = str
Addresses = tuple[Address, ...]
FilePath = str


def has(xs: Iterable[Address], x: Address) -> bool:
    return x in xs

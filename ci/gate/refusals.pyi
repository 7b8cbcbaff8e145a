# The types of refusals.py, apart from it: the keys of the ledger have its sum, and at another text every edit is tried again.
from collections.abc import Iterable

from gate import kit

class Spot:
    path: str
    start: int
    end: int
    new: str

class Edit:
    path: str
    name: str
    spots: list[Spot]

class Trial:
    built: kit.Built
    kept: str
    checks: int
    alone_checks: int
    left: list[list[Edit]]
    refused: list[str]
    survived: list[str]
    notes: list[str]
    def __init__(self, built: kit.Built, groups: Iterable[list[str]], kept: str) -> None: ...
    def untried(self) -> list[str]: ...
    def step(self) -> None: ...

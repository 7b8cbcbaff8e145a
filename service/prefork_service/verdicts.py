"""What `prefork certify --life --json` says of blocks, as values (docs/formats/json.md)."""
import dataclasses
import json
import subprocess
from collections.abc import Sequence
from typing import Any, NamedTuple

# The word of a life that is its start.
START_OF_LIFE = 0


class Open(NamedTuple):
    """An address that was open throughout, and its fewest ready workers; `workers` is None if the service was never in full."""

    address: str
    workers: int | None
    word: int
    call: int


class Short(NamedTuple):
    """A word that ended with missing workers, and the first later one that ended without; None if none has."""

    word: int
    missing: int
    healed: int | None


@dataclasses.dataclass(frozen=True)
class Holds:
    """What holds of all blocks of a master together. Words have the numbers that they have in its record."""

    open: tuple[Open, ...]
    short: tuple[Short, ...]

    @property
    def addresses(self) -> list[str]:
        return [one.address for one in self.open]

    @property
    def is_short(self) -> bool:
        """Whether workers are missing that no word has healed."""
        return any(one.healed is None for one in self.short)

    def lines(self) -> list[str]:
        """The lines that people read, as docs/formats/lives.md has them."""
        opened = [f"open throughout {one.address} least ready {least_of(one)}" for one in self.open]
        return [*(opened or ["open throughout none"]), *([short_of(one) for one in self.short] or ["short none"])]


@dataclasses.dataclass(frozen=True)
class Judgement:
    """What is said of a master: which block is not accepted, or 0, and why; or why nothing was compared; or what holds."""

    number: int = 0
    why: str = ""
    holds: Holds | None = None


def least_of(one: Open) -> str:
    """The fewest ready workers of an address, and when there were so few."""
    if one.workers is None:
        return "none"
    return f"{one.workers} at start" if one.word == START_OF_LIFE else f"{one.workers} at block {one.word} after call {one.call}"


def short_of(one: Short) -> str:
    word = "start" if one.word == START_OF_LIFE else f"block {one.word}"
    return f"short {word} missing {one.missing} " + (f"healed block {one.healed}" if one.healed is not None else "not healed")


def holds_of(life: dict[str, Any], numbers: Sequence[int]) -> Holds:
    """What holds by an answer. `numbers` are those that the compared blocks have in the record."""
    in_record = [START_OF_LIFE, *numbers]
    opened = []
    for one in life["open"]:
        least = one["least_ready"] or {"workers": None, "word": START_OF_LIFE, "after_call": 0}
        opened.append(Open(one["address"], least["workers"], in_record[least["word"]], least["after_call"]))
    healed = [None if one["healed"] is None else in_record[one["healed"]] for one in life["short"]]
    return Holds(tuple(opened), tuple(Short(in_record[one["word"]], one["missing"], by) for one, by in zip(life["short"], healed)))


def judged(found: subprocess.CompletedProcess[str], numbers: Sequence[int]) -> Judgement:
    """What an answer says of blocks that have these numbers in the record."""
    try:
        answer = json.loads(found.stdout)
        if answer.get("outcome") != "fault":
            return Judgement(holds=holds_of(answer["life"], numbers))
        # (a block that is not accepted has its number in the code, and any other fault is one of all of them)
        kind, _, rest = answer["code"].partition(" ")
        number, _, why = rest.partition(" ")
        if kind == "certify":
            return Judgement(numbers[int(number) - 1], why)
    except (AttributeError, IndexError, KeyError, TypeError, ValueError):
        # It has no answer, or is another program.
        pass
    return Judgement(why=found.stderr.strip() or f"status {found.returncode}, without an answer")

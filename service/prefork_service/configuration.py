"""A configuration as the core knows it: what prefork-read has found in the file that people write.

The file of a generation, which prefork-launch reads, has words, each ended by a byte 0. Words PREFORK_NAME=VALUE come first:
they are for the environment of all workers. Then the words of the command follow; or, for workers that have settings or
groups of their own, sections. The first word of a section says up to which number workers have it, and the last one how many
words the command after it has:

    \\1workers LAST  \\1folder PATH  \\1set NAME=VALUE  \\1read NAME=PATH  \\1nice N  \\1limit NUMBER SOFT HARD  \\1command COUNT

`read` is a variable whose value is what the file has at each start.
"""
import dataclasses
import os
from collections.abc import Iterable, Sequence
from typing import Any

# The largest number that a worker can have.
LAST = (1 << 32) - 1
SETS = "\1"
# What starts workers where nothing is to be started.
NOTHING = ("false",)
# The variable that tells a worker the addresses of its generation, in their order.
ADDRESSES = "PREFORK_ADDRESSES"


@dataclasses.dataclass(frozen=True)
class Group:
    """What starts the workers of a group, up to a number. Its settings may have secrets, and are not shown."""

    command: tuple[str, ...]
    last: int = LAST
    name: str = ""
    settings: tuple[str, ...] = dataclasses.field(default=(), repr=False)
    # Whether a preloader has loaded the application, and forks its workers: it has the settings then.
    is_forked: bool = False
    ready_within: float | None = None
    # The bytes of memory at which a worker is killed; 0 is without a limit.
    hard_memory: int = 0

    def of_workers(self) -> tuple[str, ...]:
        """The settings that a worker is started with."""
        return () if self.is_forked else self.settings

    def section(self, words: Sequence[str]) -> list[str]:
        """Its section, with the words of a command."""
        return [f"{SETS}workers {self.last}", *self.of_workers(), f"{SETS}command {len(words)}", *words]

    def loading(self) -> bytes:
        """The section of its preloader."""
        return joined([*self.settings, f"{SETS}command {len(self.command)}", *self.command])


@dataclasses.dataclass(frozen=True)
class Configuration:
    """What a configuration says. Of one that could not be read, `fault` says why; of one that the service refuses though its
    master would take it, `refusal` has the report and the reason."""

    text: bytes = b""
    # The text as the master reads it: without its command, and without what is for the service alone.
    for_master: bytes = b""
    fault: str = ""
    refusal: tuple[str, str] | None = None
    groups: tuple[Group, ...] = ()
    # The addresses and the sizes of groups; none where the master is to refuse it.
    addresses: tuple[str, ...] = ()
    sizes: tuple[int, ...] = ()
    workers: int = 0
    timeout: int = 0
    answer_within: int | None = None
    hooks: dict[str, str] = dataclasses.field(default_factory=dict)
    # What answers the questions of an upgrade that asks, if something does.
    ask: dict[str, Any] | None = None
    # What the files of variables have, by their paths.
    files: dict[str, str] = dataclasses.field(default_factory=dict, repr=False)
    # The options of listeners, by address.
    listeners: dict[str, dict[str, Any]] = dataclasses.field(default_factory=dict)
    # What is said to people of it.
    notes: tuple[str, ...] = ()

    def group_of(self, worker: int) -> str:
        """The name of the group of a worker; nothing if it has none."""
        return next((one.name for one in self.groups if worker <= one.last), "")

    def has_forked(self) -> bool:
        return any(one.is_forked for one in self.groups)

    def as_json(self) -> dict[str, Any]:
        return {**dataclasses.asdict(self), "text": self.text.decode("latin-1"), "for_master": self.for_master.decode("latin-1")}


def configuration_in(found: dict[str, Any]) -> Configuration:
    """What another process has found. It may be of a later version, whose files have come while this one runs."""
    values: dict[str, Any] = {name: tuple(value) if isinstance(value, list) else value for name, value in known(Configuration, found).items()}
    values |= {name: found[name].encode("latin-1") for name in ("text", "for_master")}
    values["groups"] = tuple(group_in(one) for one in found["groups"])
    return Configuration(**values)


def group_in(found: dict[str, Any]) -> Group:
    values: dict[str, Any] = {**known(Group, found), "command": tuple(found["command"]), "settings": tuple(found["settings"])}
    return Group(**values)


def known(kind: type, found: dict[str, Any]) -> dict[str, Any]:
    """The fields of a kind."""
    names = {field.name for field in dataclasses.fields(kind)}
    return {name: value for name, value in found.items() if name in names}


def joined(words: Iterable[str]) -> bytes:
    return b"".join(os.fsencode(word) + b"\0" for word in words)


def file_of(groups: Sequence[Group], commands: Sequence[Sequence[str]], before: Iterable[str] = ()) -> bytes:
    """The file of a generation whose groups have these commands."""
    if not groups:
        return joined([*before, *NOTHING])
    if len(groups) == 1 and not groups[0].of_workers():
        return joined([*before, *commands[0]])
    return joined([*before, *(word for group, command in zip(groups, commands) for word in group.section(command))])

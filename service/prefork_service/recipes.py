"""What starts the workers of a group, by a configuration and a command line. prefork-read and the part of a start that reads the
command line know it; the core is told what has come of it.
"""
import dataclasses
import enum
import tomllib
from typing import Any

from .bounds import ADAPTER_SECONDS, EARLIER_SECONDS
from .configuration import LAST, SETS, Group
from .toml_lines import Path as Path

# The table of a configuration that says what runs.
SERVICE = "service"
# The rules of `command` in a configuration.
MOST_COMMAND_WORDS, LONGEST_WORD = 16, 255


class Runs(enum.Enum):
    """How the workers of a group are run."""

    PROGRAM = "a program"
    WSGI = "wsgi"
    PRELOADER = "a program with preload"
    PRELOADED = "wsgi with preload"
    COMMAND = "a command"

    @property
    def has_adapter(self) -> bool:
        """Whether an adapter answers the master for the application."""
        return self in (Runs.PROGRAM, Runs.WSGI, Runs.PRELOADED)

    @property
    def is_forked(self) -> bool:
        return self in (Runs.PRELOADER, Runs.PRELOADED)


@dataclasses.dataclass(frozen=True)
class Recipe:
    """What starts the workers of a group, up to a number. What it is told as a secret is not shown."""

    words: tuple[str, ...]
    runs: Runs | None = None
    last: int = LAST
    # The name of the group, if it has one.
    name: str = ""
    folder: str = ""
    variables: tuple[tuple[str, str], ...] = dataclasses.field(default=(), repr=False)
    # Variables whose value is in a file.
    secrets: tuple[tuple[str, str], ...] = ()
    nice: int | None = None
    # By the number of the limit, soft and hard.
    limits: tuple[tuple[int, int, int], ...] = ()
    ready_within: float | None = None
    finish: float | None = None
    # The program that must be there, and how many threads a worker has that serves by itself.
    program: str = ""
    threads: int = 0
    # The bytes of memory at which a worker is killed; 0 is without a limit.
    hard_memory: int = 0

    def processes(self) -> int:
        """How many processes and threads a worker is at least: those of its adapter and of the application."""
        return 2 + self.threads if self.threads else 3 if self.runs is Runs.PROGRAM else 1

    def seconds(self) -> float:
        """How long a master has to wait for it."""
        own = [one for one in (self.ready_within, self.finish) if one]
        return max([ADAPTER_SECONDS, *own]) + EARLIER_SECONDS if self.runs and self.runs.has_adapter else max([0.0, *own])

    def settings(self) -> tuple[str, ...]:
        """The words of its settings."""
        found = [f"folder {self.folder}"] if self.folder else []
        found += [f"set {name}={value}" for name, value in self.variables]
        found += [f"read {name}={path}" for name, path in self.secrets]
        found += [] if self.nice is None else [f"nice {self.nice}"]
        found += [f"limit {number} {soft} {hard}" for number, soft, hard in self.limits]
        return tuple(f"{SETS}{word}" for word in found)

    def group(self) -> Group:
        """What the core is told of it."""
        is_forked = bool(self.runs and self.runs.is_forked)
        return Group(self.words, self.last, self.name, self.settings(), is_forked, self.ready_within, self.hard_memory)


@dataclasses.dataclass(frozen=True)
class Told:
    """What the command line says of workers. Without a table `service` the command is all of it."""

    command: tuple[str, ...] | None = None
    runs: Runs | None = None
    program: tuple[str, ...] = ()
    wsgi: str = ""
    python: str = ""
    is_preloaded: bool = False
    folder: str = ""
    # The folder in which prefork-serve was started.
    place: str = ""
    # The options of adapters that were given.
    of_program: tuple[str, ...] = ()
    of_wsgi: tuple[str, ...] = ()
    # The program that is looked for before a start, and what else counts of the command.
    looked_for: str = ""
    ready_within: float | None = None
    finish: float | None = None
    threads: int = 0
    hard_memory: int = 0

    def as_json(self) -> dict[str, Any]:
        """All of it, for another process."""
        return {**dataclasses.asdict(self), "runs": self.runs.value if self.runs else None}

    def recipe(self, words: tuple[str, ...], runs: Runs | None, program: str) -> Recipe:
        """What starts workers without a table `service`."""
        return Recipe(words, runs, ready_within=self.ready_within, finish=self.finish, program=program, threads=self.threads, hard_memory=self.hard_memory)


def told_in(found: dict[str, Any]) -> Told:
    """What another process was told of the command line."""
    values: dict[str, Any] = {name: tuple(value) if isinstance(value, list) else value for name, value in found.items()}
    values["runs"] = Runs(found["runs"]) if found["runs"] else None
    return Told(**values)


@dataclasses.dataclass(frozen=True)
class Fault:
    """What is wrong, and with which key."""

    path: Path
    text: str


@dataclasses.dataclass
class Setup:
    """What runs as workers, and what the service itself is told by the file."""

    recipes: tuple[Recipe, ...] = ()
    answer_within: int | None = None
    hooks: dict[str, str] = dataclasses.field(default_factory=dict)
    # What answers the questions of an upgrade that asks, if something does.
    ask: dict[str, Any] | None = None
    faults: list[Fault] = dataclasses.field(default_factory=list)
    # The keys that the command line overrides.
    overridden: list[str] = dataclasses.field(default_factory=list)
    # What the files of variables have, by their paths.
    files: dict[str, str] = dataclasses.field(default_factory=dict, repr=False)

    def groups(self) -> tuple[Group, ...]:
        return tuple(one.group() for one in self.recipes)


def is_command(value: object) -> bool:
    """Whether a configuration may have this as its `command`."""
    if not isinstance(value, list) or not 1 <= len(value) <= MOST_COMMAND_WORDS:
        return False
    texts = [word.encode() for word in value if isinstance(word, str)]
    return len(texts) == len(value) and all(1 <= len(text) <= LONGEST_WORD and 0 not in text for text in texts)


def has_table(text: bytes) -> bool:
    """Whether a configuration has a table `service` with keys."""
    try:
        return bool(tomllib.loads(text.decode()).get(SERVICE))
    except (ValueError, RecursionError):
        return False


def setup_of(text: bytes, told: Told, kept: dict[str, str] | None = None) -> Setup:
    """What runs by a configuration and a command line."""
    try:
        found = tomllib.loads(text.decode())
    except (ValueError, RecursionError):
        found = {}
    if isinstance(found.get(SERVICE), dict) and found[SERVICE]:
        from .settings import Reading
        return Reading(found, told, kept).read()
    if is_command(found.get("command")):
        words = tuple(found["command"])
        return Setup((told.recipe(words, Runs.COMMAND, words[0]),))
    return Setup((told.recipe(told.command, told.runs, told.looked_for),) if told.command else ())

"""Random starts, words, turns, and patterns of failing calls and exits."""
import random
from typing import NamedTuple

from reader import names as name
from reader.groups import Group
from reader.master import Record
from reader.names import Name
from reader.numbers import numbers_below
from reader.plans import Turns
from reader.run import Moment
from reader.settings import Settings
from reader.start import booted, started
from reader.table import Foreign, Hold, Table
from reader.texts import Moments
from reader.vocabulary import Fate, Generation, Limits, Turn
from reader.words import Standing

ADDRESSES = ("0.0.0.0:8080", "0.0.0.0:9090", "127.0.0.1:80", "[::]:8080", "/run/a.sock", "/run/b.sock")
WORDS = (
    "HUP", "HUP", "HUP", "USR2", "USR2", "USR2", "USR2 attended", "USR2 attended", "USR2 attended", "TTIN", "TTIN",
    "TTOU", "TTOU", "WINCH", "USR1", "USR1", "tick", "tick", "tick", "beat", "QUIT", "INT",
)
# those that more calls have come more often
FATES = (*Fate, Fate.Late, Fate.Late, Fate.Late, Fate.Again, Fate.Again, Fate.IoFault, Fate.Back, Fate.Back)
MOST_WORKERS = 6
DENSITIES = (0.0, 0.0, 0.03, 0.1, 0.3, 0.8)
LIMITS = Limits(65535, 64)


class Start(NamedTuple):
    """How the program starts a master, the settings that it is to go over to, and where the master is then."""

    options: list[str]
    files: dict[str, Settings]
    next: Settings
    standing: Standing


def any_settings(dice: random.Random, pid: str | None) -> Settings:
    """One to three groups with one or two addresses each, and a few workers."""
    addresses = dice.sample(ADDRESSES, len(ADDRESSES))
    groups = [Group(dice.choice((1, 1, 2)), dice.randrange(4)) for _ in range(dice.choice((1, 1, 1, 2, 2, 3)))]
    while sum(g.addresses for g in groups) > len(addresses) or sum(g.workers for g in groups) > MOST_WORKERS:
        groups.pop()
    return Settings(
        listeners=tuple(addresses[:sum(g.addresses for g in groups)]),
        workers=sum(g.workers for g in groups),
        groups=tuple(groups),
        timeout=dice.randint(1, 4),
        retries=dice.choice((0, 0, 1, 1, 2, 3)),
        surge=dice.choice((0, 0, 1, 1, 2, 3)),
        pid=pid,
    )


def with_foreign(a: str, t: Table) -> Table:
    """A foreign process, which holds the address."""
    row = Foreign(t.next_process, (Hold(3, t.next_socket, a),))
    return t._replace(rows=(*t.rows, row), next_process=t.next_process + 1, next_socket=t.next_socket + 1)


def any_start(dice: random.Random) -> Start:
    pid = dice.choice((None, "/run/a.pid"))
    first = any_settings(dice, pid)
    other = any_settings(dice, pid if dice.randrange(20) else "/run/b.pid")
    has_next = dice.randrange(8) > 0
    files = {"a.toml": first, "b.toml": other}
    options = ["--from", "a.toml"] + (["--to", "b.toml"] if has_next else [])
    wanted, running = first.workers, first.workers
    if dice.randrange(6) == 0:
        wanted = running = dice.randrange(MOST_WORKERS + 1)
        options += ["--workers", str(wanted)]
    if dice.randrange(8) == 0:
        running = 0
        options.append("--bare")
    table = booted(first.listeners, first.groups, running, first.pid, LIMITS)
    held = [a for a in ADDRESSES if a not in first.listeners]
    if held and dice.randrange(8) == 0:
        options += ["--held", dice.choice(held)]
        table = with_foreign(options[-1], table)
    record = started(first, wanted, numbers_below(running), 100)
    beats: dict[int, int | None] = {k: None for k in record.ready}
    return Start(options, files, other if has_next else first, Standing(table, record, beats))


def any_word(dice: random.Random) -> str:
    word = dice.choice(WORDS)
    if word == "tick":
        return f"tick {dice.randrange(16)}"
    return f"beat {dice.randrange(4)} {dice.randrange(6)}" if word == "beat" else word


def any_turns(dice: random.Random, word: str) -> Turns:
    if not word.startswith("USR2") or dice.randrange(3) == 0:
        return ()
    return tuple(dice.choice((Turn.New, Turn.Old)) for _ in range(dice.randint(1, 24)))


def any_name(dice: random.Random, r: Record) -> Name:
    """A process that may be there: of the generation that runs, or of the next one of a reload or an upgrade."""
    image, config = r.generation
    if dice.randrange(8) == 0:
        return name.Master(image + 1 if dice.randrange(12) else image)
    g = dice.choice(((image, config), (image, config), (image, config + 1), (image + 1, config + 1)))
    kinds: tuple[type[name.Worker] | type[name.Draining], ...] = (name.Worker, name.Worker, name.Worker, name.Draining)
    return dice.choice(kinds)(Generation(*g), dice.randrange(MOST_WORKERS))


class Density(NamedTuple):
    """How often a moment has a fate, and of which, and how often an exit."""

    fails: float
    fates: tuple[Fate, ...]
    exits: float


def any_density(dice: random.Random) -> Density:
    """In one pattern of three all fates are the same: then each call of one kind fails."""
    fates = FATES if dice.randrange(3) else (dice.choice(FATES),)
    return Density(dice.choice(DENSITIES), fates, dice.choice(DENSITIES))


def any_moment(dice: random.Random, r: Record, density: Density) -> Moment:
    names: list[Name] = []
    while len(names) < 3 and dice.random() < density.exits:
        names.append(any_name(dice, r))
    return Moment(tuple(names), dice.choice(density.fates) if dice.random() < density.fails else None)


def going_back(dice: random.Random) -> Moments:
    """From some call on the operator goes back, and starts fail: so some attended upgrades go back at each question."""
    fates = (Fate.Back, Fate.Back, Fate.Again, Fate.Late)
    return {n: Moment((), dice.choice(fates)) for n in range(dice.randint(8, 30), 61)}


def any_moments(dice: random.Random, word: str, r: Record) -> Moments:
    """A pattern: how dense it is differs, and so does how many calls it goes on for."""
    if word == "USR2 attended" and dice.randrange(3) == 0:
        return going_back(dice)
    density = any_density(dice)
    first, last = dice.choice((1, 1, dice.randint(1, 30))), dice.choice((10, 30, 60))
    found = {n: any_moment(dice, r, density) for n in range(first, last + 1)}
    return {n: moment for n, moment in found.items() if moment.exits or moment.fate}

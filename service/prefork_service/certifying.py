"""Records, certified: the parts of each master joined, and compared with plans and model by `prefork certify`.

A master that is started after the death of another one goes on with its service, on the sockets of the keeper: both are
one life. What holds of it is read from what `prefork certify` says of each.
"""
import dataclasses
import datetime
import pathlib
import subprocess
import tempfile
from typing import Any

from .blocks import block_of, ends_block
from .records import DIED, GAP, LOST, files_of, masters_in, part_number
from .verdicts import Holds, Judgement, judged
from .words import CHANGES, START, is_tick

NOT_ACCEPTED, NOT_COMPARED = 5, 1
BEGINNING = "its beginning is no longer there"
# How often the records of a master are read anew, since the service removes old parts meanwhile.
MOST_READINGS = 5


@dataclasses.dataclass
class Life:
    """What is there of one master: its blocks from its start on, and the configurations that they go over to, by the
    number of the block that reads it first."""

    name: str
    since: str
    # The configuration of its start, if that is still there.
    begin: bytes | None
    blocks: list[str]
    targets: dict[int, bytes]
    lacks: str
    # The blocks before which a new master had ended, as prefork-serve saw.
    lost: list[int]
    # After how many blocks it died, as prefork-serve saw, and in the middle of which word.
    died: tuple[int, str] | None


@dataclasses.dataclass
class Certified:
    """What is said of a master, and the status; and what holds of its life, if all of its blocks are accepted."""

    life: Life
    text: str
    status: int
    holds: Holds | None = None


def lives_in(place: pathlib.Path) -> list[Life]:
    """What is there of each master, oldest first. What the service removes meanwhile is left out."""
    return [life for folder in masters_in(place) if (life := read_life(folder))]


def read_life(folder: pathlib.Path) -> Life | None:
    """What is there of a master; nothing if its folder has been removed."""
    for tries in range(MOST_READINGS, -1, -1):
        try:
            return life_of(folder)
        except FileNotFoundError:
            if folder.is_dir() and not tries:
                raise
    return None


def life_of(folder: pathlib.Path) -> Life:
    """Joins the parts of a master. Raises FileNotFoundError if one is removed meanwhile."""
    files, begin = files_of(folder), folder / "from.toml"
    parts = [file for file in files if file.name.startswith("blocks.")]
    targets = {part_number(file): file.read_bytes() for file in files if file.name.startswith("to.")}
    is_whole = begin in files and (not parts or part_number(parts[0]) == 1)
    lacks, text = "" if is_whole else BEGINNING, ""
    for file in parts:
        if file.name.endswith(GAP):
            lacks = lacks or "blocks after these could not be written"
            break
        text += file.read_text()
    lost = [part_number(file) for file in files if file.name.startswith(LOST)]
    died = [(part_number(file), file.read_text().strip()) for file in files if file.name.startswith(DIED)]
    first = begin.read_bytes() if begin in files else None
    name, moment, goals = folder.name, since(begin if begin in files else folder), dict(sorted(targets.items()))
    return Life(name, moment, first, blocks_of(text), goals, lacks, lost, max(died, default=None))


def since(file: pathlib.Path) -> str:
    return datetime.datetime.fromtimestamp(file.stat().st_mtime).astimezone().isoformat(timespec="seconds")


def blocks_of(text: str) -> list[str]:
    """The blocks of a text, each with its lines. What is not complete at the end is left out."""
    found, block = [], ""
    for line in text.splitlines(keepends=True):
        block += line
        if line.endswith("\n") and ends_block(line):
            found.append(block)
            block = ""
    return found


def is_refused(text: str) -> bool:
    """Whether a word was refused before anything was asked of the kernel: certify would carry it out."""
    report = block_of(text).report
    return report.outcome == "unread" or report.is_of_file


def goes_over(text: str) -> bool:
    """Whether a word was carried out that can go over to another configuration."""
    block = block_of(text)
    return block.word in CHANGES and block.report.outcome not in ("refused", "nothing")


def goals_of(life: Life) -> list[bytes]:
    """The configuration that each word went over to which was carried out, in their order: the newest that was read
    up to its block. `prefork certify` lets all later words go over to the last one: it need not be told again."""
    goals = [target_at(life, number) for number, block in enumerate(life.blocks, 1) if goes_over(block)]
    while len(goals) > 1 and goals[-1] == goals[-2]:
        goals.pop()
    return goals


def target_at(life: Life, number: int) -> bytes:
    read = [text for first, text in life.targets.items() if first <= number]
    return read[-1] if read else life.begin or b""


def certified(life: Life, prefork: str) -> Certified:
    """What certify says of a master, and the status: 0 if all that was compared is accepted."""
    head = f"{life.name}, since {life.since}"
    if life.lacks.startswith(BEGINNING):
        return Certified(life, f"{head}: {life.lacks}; {len(life.blocks)} blocks are not compared", 0)
    found = answered(life, prefork)
    if found.number in life.lost:
        # What the model has no master's death for. The next master has a record of its own.
        told = f"{head}: {counted(found.number - 1)}, from the first on{ended_before(life, found.number)}"
        before = answered(dataclasses.replace(life, blocks=life.blocks[: found.number - 1]), prefork)
        return Certified(life, "\n  ".join([told, *lines_of(before)]), 0, before.holds)
    if found.number:
        word = life.blocks[found.number - 1].splitlines()[0]
        return Certified(life, f"{head}: block {found.number}, {word}, is not accepted: {found.why}", NOT_ACCEPTED)
    if found.why:
        return Certified(life, f"{head}: nothing was compared: {found.why}", NOT_COMPARED)
    told = f"{head}: {counted(len(life.blocks))}, from the first on{dead(life)}"
    told = f"{told}; {life.lacks}" if life.lacks else told
    return Certified(life, "\n  ".join([told, *lines_of(found)]), 0, None if life.lacks else found.holds)


def lines_of(found: Judgement) -> list[str]:
    return found.holds.lines() if found.holds else []


def dead(life: Life) -> str:
    """What is said of a master that has died."""
    if not life.died:
        return ""
    word = life.died[1]
    place = "at its start" if word == START else "in a tick" if is_tick(word) else f"in {word}" if word else "between two words"
    return f"; then the master died, {place}"


def counted(blocks: int) -> str:
    return "1 block is accepted" if blocks == 1 else f"{blocks} blocks are accepted"


def ended_before(life: Life, number: int) -> str:
    """What is said of a block that a new master did not live to see."""
    word = life.blocks[number - 1].splitlines()[0]
    return f"; before block {number}, {word}, the new master had ended. The service saw that, and started the next master"


def answered(life: Life, prefork: str) -> Judgement:
    """What `prefork certify` says of a master. Blocks have their numbers in the record."""
    chosen = [(number, block) for number, block in enumerate(life.blocks, 1) if not is_refused(block)]
    with tempfile.TemporaryDirectory(prefix="certify-") as room:
        begin, files = pathlib.Path(room) / "from.toml", goal_files(pathlib.Path(room), goals_of(life))
        begin.write_bytes(life.begin or b"")
        goals = [argument for file in files for argument in ("--to", file)]
        command: list[Any] = [prefork, "certify", "--json", "--bare", "--from", begin, "--life", *goals]
        text = "".join(block for _, block in chosen)
        try:
            found = subprocess.run(command, input=text, capture_output=True, text=True)
        except OSError as fault:
            return Judgement(why=f"{prefork}: {fault.strerror}")
    return judged(found, [number for number, _ in chosen])


def goal_files(room: pathlib.Path, goals: list[bytes]) -> list[pathlib.Path]:
    """A file for each goal; those that are the same share one."""
    files = {text: room / f"to.{number}.toml" for number, text in enumerate(dict.fromkeys(goals), 1)}
    for text, file in files.items():
        file.write_bytes(text)
    return [files[text] for text in goals]


def certify(place: pathlib.Path, prefork: str) -> tuple[list[str], int]:
    """What certify says of each master, oldest first, and of each life of several masters; and the gravest status."""
    lives = lives_in(place)
    if not lives:
        return [f"{place}: no records"], NOT_COMPARED
    found = [certified(life, prefork) for life in lives]
    is_compared = any(not life.lacks.startswith(BEGINNING) for life in lives)
    lines = [line for group in groups_of(found) for line in [*(one.text for one in group), *joined(group)]]
    return lines, max(one.status for one in found) if is_compared else NOT_COMPARED


def groups_of(found: list[Certified]) -> list[list[Certified]]:
    """The masters of each life: each but the last has died, and the next one goes on from there."""
    groups, goes_on = list[list[Certified]](), False
    for one in found:
        if goes_on:
            groups[-1].append(one)
        else:
            groups.append([one])
        goes_on = one.life.died is not None
    return groups


def joined(group: list[Certified]) -> list[str]:
    """What holds of a life of several masters. Between two of them the keeper has the sockets, and the next one takes them:
    an address that is open throughout each part is open throughout the whole. Missing workers of one that has died are
    healed by a later master, of which no worker is missing."""
    parts = [one.holds for one in group if one.holds]
    if len(group) < 2 or len(parts) < len(group):
        return []
    kept = [address for address in parts[0].addresses if all(address in part.addresses for part in parts)]
    head = f"{group[0].life.name} to {group[-1].life.name} are one life, if the keeper kept the sockets"
    ends = "it ends with missing workers" if parts[-1].is_short else "it ends without missing workers"
    return [f"{head}: open throughout {', '.join(kept) or 'none'}; {ends}"]

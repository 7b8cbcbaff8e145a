"""Random folders of records: what the page reads of their files, beside what the service itself does."""
import json
import pathlib
import random
import subprocess
import sys
from collections.abc import Iterator
from typing import Any

from gate.tally import ROOT

sys.path.insert(0, str(ROOT / "service"))

from prefork_service import certifying

WORDS = ("HUP", "HUP", "USR2", "USR2 attended", "TTIN", "TTOU", "tick 3", "beat 0 4")
REPORTS = (
    "done cause none pid in-place", "rolled-back cause 1 pid no-file", "degraded target 1 cause 1 pid no-file", "nothing",
    "refused C1", "refused W4", "refused E1", "lost cause 1 pid no-file",
)
FOLDERS = 200


def block(dice: random.Random) -> str:
    if not dice.randrange(9):
        return "unread W1\n"
    call = "1 m1 open 0.0.0.0:9090 : in-use\n" if dice.randrange(3) else ""
    return f"word {dice.choice(WORDS)}\n{call}{dice.choice(REPORTS)}\n"


def lay_out(folder: pathlib.Path, dice: random.Random) -> None:
    """Files of one master: parts, configurations, marks, and sometimes a lack."""
    folder.mkdir()
    blocks = [block(dice) for _ in range(dice.randrange(1, 14))]
    if dice.randrange(9):
        (folder / "from.toml").write_text("workers = 1\n")
    if not dice.randrange(6):
        blocks[-1] = blocks[-1].rpartition("\n")[0][:-1]
    first, cuts = (1 if dice.randrange(9) else 2), sorted({0, len(blocks), dice.randrange(len(blocks)), dice.randrange(len(blocks))})
    for part, (begin, end) in enumerate(zip(cuts, cuts[1:]), first):
        gap = ".gap" if part > first and not dice.randrange(6) else ""
        (folder / f"blocks.{part}{gap}").write_text("".join(blocks[begin:end]))
    for number in dice.sample(range(1, 15), dice.randrange(4)):
        (folder / f"to.{number}.toml").write_text(f"workers = {dice.randrange(2, 5)}\n")
    for number in dice.sample(range(1, 15), dice.randrange(2)):
        (folder / f"lost.{number}").write_text("it has ended\n")


def read_by_service(folder: pathlib.Path) -> Any:
    """What is certified of a folder, as the service says."""
    life = certifying.life_of(folder)
    if life.lacks.startswith(certifying.BEGINNING):
        return None
    chosen = [(number, text) for number, text in enumerate(life.blocks, 1) if not certifying.is_refused(text)]
    begin = (life.begin or b"").decode()
    return {
        "from": begin, "goals": [text.decode() for text in certifying.goals_of(life)] or [begin],
        "text": "".join(text for _, text in chosen), "hasGap": bool(life.lacks),
        "lost": [place for place, (number, _) in enumerate(chosen, 1) if number in life.lost],
    }


def shuffled(dice: random.Random, files: list[list[str]]) -> list[list[str]]:
    return dice.sample(files, len(files))


def faults(dice: random.Random, room: pathlib.Path) -> Iterator[list[str]]:
    """For each of some random folders, what the page reads otherwise."""
    room.mkdir()
    folders = [room / str(number) for number in range(FOLDERS)]
    for folder in folders:
        lay_out(folder, dice)
    given = [shuffled(dice, [[file.name, file.read_text()] for file in sorted(folder.iterdir())]) for folder in folders]
    reader = ROOT / "page" / "tests" / "records.js"
    told = subprocess.run(["node", reader], input=json.dumps(given), capture_output=True, text=True, check=True).stdout
    for folder, found in zip(folders, json.loads(told), strict=True):
        wanted = read_by_service(folder)
        is_same = bool(found.get("missing")) if wanted is None else found == wanted
        yield [] if is_same else [f"records: of {sorted(it.name for it in folder.iterdir())} the page reads {found}, and the service {wanted}"]

"""`certify` in the page: records of masters, and what the page says of them beside what the program says."""
import functools
import importlib.machinery
import importlib.util
import pathlib
import random
import re
import subprocess
import sys
import tempfile
from collections.abc import Collection, Iterator
from typing import Any, NamedTuple

from browser.chromium import Page
from browser.clicks import SECONDS, SEEN, blocks_of, click, count, set_field, to_start
from gate.tally import ROOT
from gate.waiting import until
from web.site import BROKEN, Site

sys.path.insert(0, str(ROOT / "service"))

from prefork_service import certifying
from prefork_service.records import masters_in

# The page lists this number of blocks.
MOST_BLOCKS = 200
# What explains each block that is listed.
EXPLAINED = """
[...document.querySelectorAll('#certified ol.blocks > li > details > summary')].map(it => it.querySelector('span') ? it.querySelector('span').textContent : '')
"""


class Record(NamedTuple):
    """What a master wrote, with the texts of the configurations that it started with and went over to."""

    blocks: str
    start: str
    goals: tuple[str, ...]


def soaked(program: str, seed: int, words: int, folder: pathlib.Path) -> tuple[Record, list[str]]:
    """The record of ci/soak: a real master and its workers, of which random ones are killed; and what went wrong there."""
    loader = importlib.machinery.SourceFileLoader("soak", str(ROOT / "ci" / "soak"))
    spec = importlib.util.spec_from_loader("soak", loader)
    assert spec
    module = importlib.util.module_from_spec(spec)
    loader.exec_module(module)
    folder.mkdir()
    wrong = module.Soak(program, seed, words, folder).run()
    text = [(folder / name).read_text() for name in ("blocks", "a.toml", "b.toml")]
    return Record(text[0], text[1], (text[2],)), wrong


def has_others(site: Site, old: Collection[int], count: int) -> bool:
    """Whether this number of workers runs, and others than those."""
    return len(site.workers()) == count and site.workers() != old


def served(program: str, room: pathlib.Path, dice: random.Random) -> tuple[list[pathlib.Path], list[str]]:
    """The records of a real service, by master, that went over to several configurations; and what went wrong there."""
    room.mkdir()
    site = Site(program, str(room), "records")
    site.begin()
    for number in dice.sample(range(1, 5), 3):
        site.configure(workers=number)
        site.wants(dice.choice(("HUP", "USR2")), 0, "done", number)
        old = site.workers()
        site.kill(dice.choice(sorted(old)))
        until("another worker", functools.partial(has_others, site, old, number))
    site.install(BROKEN)
    site.sent("HUP").communicate(timeout=SECONDS)
    site.config.write_text("listeners = [\n")
    site.sent("HUP").communicate(timeout=SECONDS)
    site.end_load()
    site.stop()
    return masters_in(site.run / "records"), site.tally.wrong


def certified(program: str, record: Record) -> subprocess.CompletedProcess[str]:
    """What the program says of a record."""
    with tempfile.TemporaryDirectory(prefix="page-record-") as folder:
        words = [program, "certify", "--bare", "--from", "from.toml"]
        for name, text in (("from.toml", record.start), *((f"to.{k}.toml", text) for k, text in enumerate(record.goals))):
            (pathlib.Path(folder) / name).write_text(text)
            words += ["--to", name] if name != "from.toml" else []
        return subprocess.run(words, input=record.blocks, capture_output=True, text=True, timeout=SECONDS, cwd=folder)


def sections(output: str) -> list[str]:
    """What explains each block, of the patterns that `certify` prints, as the page says it."""
    parts = [[line for line in part.split("\n") if line] for part in re.split(r"(?m)^next$", output)]
    return [f" since {', '.join(lines)}" if lines else "" for lines in parts]


def lay_in(page: Page, record: Record) -> None:
    """Puts a record into the fields of the page, as a reader does."""
    to_start(page)
    page.value("document.getElementById('certified').replaceChildren()")
    set_field(page, "a", record.start)
    set_field(page, "b", record.goals[0])
    while count(page, "#later button"):
        click(page, "#later button")
    for number, text in enumerate(record.goals[1:]):
        click(page, "#addLater")
        page.value(f"(() => {{ const it = document.querySelectorAll('#later textarea')[{number}]; it.value = {text!r}; it.dispatchEvent(new Event('input')); }})()")
    set_field(page, "recordBare", True)
    set_field(page, "record", record.blocks)


def certificate_faults(page: Page, program: str, record: Record) -> Iterator[str]:
    """`certify` in the page answers as the program does; the record's runs can be drawn."""
    lay_in(page, record)
    yield from answer_faults(page, certified(program, record), record.blocks)
    if len(record.goals) == 1 and page.value("!!document.querySelector('#certified h3.good')"):
        yield from drawn_faults(page, record.blocks)


def answer_faults(page: Page, told: subprocess.CompletedProcess[str], blocks: str) -> Iterator[str]:
    """What the page says once it certifies, beside what the program says."""
    click(page, "#certify")
    page.becomes("document.querySelector('#certified h3')")
    shown = page.value("document.getElementById('certified').innerText")
    if told.returncode:
        if told.stderr.splitlines()[0] not in shown or shown.startswith("Accepted"):
            yield f"the program says {told.stderr!r}, the page {shown[:200]!r}"
        return
    number = len(re.findall(r"(?m)^(?:word|unread) ", blocks))
    if f"Accepted: {number} block{'' if number == 1 else 's'}" not in shown:
        yield f"the page does not accept {number} blocks: {shown[:200]!r}"
        return
    wanted, found = sections(told.stdout)[:MOST_BLOCKS], page.value(EXPLAINED)
    if wanted != found:
        yield f"the program explains the blocks by {wanted!r}, and the page by {found!r}"


def drawn_faults(page: Page, record: str) -> Iterator[str]:
    """The last block of the record that can be drawn in the page is that block."""
    last = count(page, "#certified button.draw:not(:disabled)") - 1
    click(page, "#certified button.draw:not(:disabled)", last)
    page.becomes("document.querySelectorAll('#row button').length > 1")
    seen: Any = page.value(SEEN)
    shown = "".join(f"{line}\n" for line in (f"word {seen['word']}", *seen["calls"], seen["report"]))
    if blocks_of(record)[last] != shown:
        yield f"block {last + 1} is {blocks_of(record)[last]!r}, and the page draws {shown!r}"


def folder_faults(page: Page, program: str, folder: pathlib.Path) -> Iterator[str]:
    """The files of a service's record, chosen in the page: they come into their places, and the page answers as
    `prefork-ctl certify` does."""
    life = certifying.life_of(folder)
    goals = [text.decode() for text in certifying.goals_of(life)] or [(life.begin or b"").decode()]
    chosen = [block for block in life.blocks if not certifying.is_refused(block)]
    to_start(page)
    page.value("document.getElementById('certified').replaceChildren()")
    page.choose("#recordFiles", sorted(folder.iterdir()))
    page.becomes("document.querySelector('#certified p')")
    shown = page.value("[document.getElementById('a').value, document.getElementById('b').value, ...[...document.querySelectorAll('#later textarea')].map(it => it.value)]")
    if shown != [(life.begin or b"").decode(), *goals]:
        yield f"{folder}: the page has the configurations {shown}"
    if page.value("document.getElementById('record').value") != "".join(chosen):
        yield f"{folder}: the page has other blocks"
    record = Record("".join(chosen), (life.begin or b"").decode(), tuple(goals))
    told = certified(program, record)
    yield from (f"{folder}: {fault}" for fault in answer_faults(page, told, record.blocks))
    judged = certifying.answered(life, program)
    if bool(judged.number or judged.why) != (told.returncode != 0):
        yield f"{folder}: prefork-ctl certify says something else, {judged}: {told.stderr}"
    if not told.returncode:
        yield from drawn_faults(page, record.blocks)

"""The page that rehearses, in Chromium: all that is checked of it, whether its module answers or the program itself."""
import contextlib
import os
import pathlib
import random
import shutil
import subprocess
from collections.abc import Iterable, Iterator
from typing import NamedTuple

from browser import asked, certificates, clicks, shots
from browser.chromium import BrowserFault, Page
from browser.looks import faults as look_faults, unheard
from gate.tally import ROOT, Tally

# This number of states with a fault ends the clicks: each may take as long as a limit of time.
MOST_FAULTS = 3
INDEX = "index.html"
# What is wrong with each thing that is checked, by its name.
Checks = Iterator[tuple[str, Iterable[str]]]


class Tried(NamedTuple):
    """What is tried, and how much of it. Without a folder of a page that was built, the program answers."""

    program: str
    seed: int
    states: int
    words: int
    room: pathlib.Path
    built: pathlib.Path | None
    shots: pathlib.Path | None

    def checks(self, page: Page, here: str) -> Checks:
        """Each check of the page, which is at an address."""
        dice = random.Random(self.seed)
        yield "looks", look_faults(page)
        if self.built:
            # (of the program these are `ci/cases`; a process tells nothing of its way)
            yield from clicks.case_faults(page)
            yield "end", clicks.end_faults(page)
        yield "keys", clicks.keyboard_faults(page)
        yield "explore", clicks.explore_faults(page, self.program)
        yield from self.state_faults(page, dice)
        yield from self.record_faults(page, dice)
        yield from self.look_faults(page)
        others = [it for it in page.requests if not it.startswith((here, "blob:", "data:"))]
        yield "requests", [f"the page asks for {it}" for it in others]
        yield "complaints", page.complaints

    def state_faults(self, page: Page, dice: random.Random) -> Checks:
        """Random states, until some have faults."""
        wrong = 0
        for number in range(self.states):
            faults = clicks.state_faults(page, self.program, dice, number)
            yield f"state {number}", faults
            wrong += bool(faults)
            if wrong == MOST_FAULTS:
                return

    def record_faults(self, page: Page, dice: random.Random) -> Checks:
        """The record of a real master, the same with a wrong answer, and the records of a real service."""
        record, wrong = certificates.soaked(self.program, self.seed, self.words, self.room / "soak")
        yield "the master whose record is certified", wrong
        yield "certify", certificates.certificate_faults(page, self.program, record)
        altered = record._replace(blocks=record.blocks.replace(": ready", ": late", 1))
        yield "certify what was altered", certificates.certificate_faults(page, self.program, altered)
        if not shutil.which(os.environ.get("CC", "cc")):
            print("left out: records of a service: no C compiler (cc)", flush=True)
            return
        subprocess.run([ROOT / "service" / "build"], check=True)
        kept, wrong = certificates.served(self.program, self.room / "served", dice)
        yield "the service whose records are certified", wrong or ([] if kept else ["it has no records"])
        for folder in kept:
            yield "certify the files of a service", certificates.folder_faults(page, self.program, folder)

    def look_faults(self, page: Page) -> Checks:
        """The states of which pictures are taken: how they look, and what a screen reader finds."""
        for name in shots.REHEARSALS:
            shots.show(page, name)
            for width, scheme in shots.LOOKS:
                page.size(width, shots.HEIGHT, scheme)
                yield f"{name}, {scheme}, {width}", [*look_faults(page), *unheard(page, shots.heard(page, name))]
                if self.shots:
                    page.picture(self.shots / f"rehearse-{name}-{scheme}-{width}.png")


def tally_of(tried: Tried) -> Tally:
    """The checks of the page in a browser."""
    found = Tally()
    with contextlib.ExitStack() as stack:
        if tried.built:
            here = f"file://{tried.built}/"
        else:
            here = stack.enter_context(asked.Asked(tried.program, tried.room / "asked")).address
        try:
            page = stack.enter_context(Page())
            page.go(f"{here}{INDEX}", clicks.READY)
            for what, faults in tried.checks(page, here):
                found.check([f"clicks, {what}: {fault}" for fault in faults])
        except BrowserFault as fault:
            found.check([f"clicks: {fault}"])
    return found

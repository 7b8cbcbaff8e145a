"""The folder of the page where ./install and ./package put it: as it was built, and to be opened from disk."""
import filecmp
import os
import pathlib
import shutil
import subprocess
from collections.abc import Iterator
from typing import Any

from browser import asked, clicks
from browser.chromium import BrowserFault, Page, chromium
from gate.tally import ROOT, Tally
from shipping.debian import SOURCES

PLACE = "usr/share/prefork/page"
MODULE = "prefork_wasm.js"
# How much later a module is made than the program that it is of, and the next program than that.
LATER = 60


def ran(*command: Any) -> None:
    subprocess.run([str(word) for word in command], check=True, capture_output=True, text=True)


def lay_out(tree: pathlib.Path, program: str, built: pathlib.Path | None) -> pathlib.Path:
    """A tree of what is packaged, with the page that was built, or with one without a module; and its program."""
    tree.mkdir(parents=True)
    for name in SOURCES:
        if (ROOT / name).is_dir():
            shutil.copytree(ROOT / name, tree / name)
        else:
            shutil.copy(ROOT / name, tree / name)
    made = tree / "prefork-of-page"
    shutil.copy(program, made)
    if built:
        shutil.copytree(built, tree / "page" / "out")
    else:
        asked.builder().lay_out(b"", tree / "page" / "out")
    moment = (tree / "page" / "out" / MODULE).stat().st_mtime - LATER
    os.utime(made, (moment, moment))
    return made


def differences(place: pathlib.Path, wanted: pathlib.Path) -> Iterator[str]:
    """Whether a folder has the same files as another, and no more."""
    names = sorted(file.name for file in wanted.iterdir())
    found = sorted(file.name for file in place.iterdir()) if place.is_dir() else []
    if names != found:
        yield f"{place} has {found}, and not {names}"
        return
    _, differ, lost = filecmp.cmpfiles(place, wanted, names, shallow=False)
    yield from (f"{place}: {name} is another file" for name in [*differ, *lost])


def opened_faults(place: pathlib.Path, has_module: bool) -> Iterator[str]:
    """The folder is opened from disk: a run is shown, and follows a click. A module that cannot be read is told."""
    with Page() as page:
        if not has_module:
            page.go(f"file://{place}/index.html", "!!document.querySelector('#end.refused h2')")
            told = page.value("document.querySelector('#end h2').textContent")
            if told != "This browser does not run the module":
                yield f"of a module that cannot be read the page says {told!r}"
            return
        page.go(f"file://{place}/index.html", clicks.READY)
        click = "document.querySelector('tr[data-call=\"3\"] button.call').click()"
        choose = "[...document.querySelectorAll('button.choice')].find(it => it.dataset.event === '3 fail again').click()"
        told = page.value(f"{click}; {choose}; document.querySelector('#end h2').textContent")
        if told != "rolled-back":
            yield f"from disk the page ends with {told!r}"
        yield from (f"from disk the page asks for {it}" for it in page.requests if not it.startswith((f"file://{place}/", "blob:", "data:")))
        yield from (f"from disk the page complains: {it}" for it in page.complaints)


def tally_of(program: str, built: pathlib.Path | None, room: pathlib.Path) -> Tally:
    """The checks of the folder, of a page that was built, or without a module."""
    found, tree = Tally(), room / "tree"
    made = lay_out(tree, program, built)
    page, words = tree / "page" / "out", ["--unproved", made]
    ran(tree / "install", "--destdir", room / "installed", *words, "/usr")
    found.check(f"./install: {it}" for it in differences(room / "installed" / PLACE, page))
    ran(tree / "package", *words, room)
    [package] = room.glob("*.deb")
    ran("dpkg-deb", "--extract", package, room / "unpacked")
    found.check(f"./package: {it}" for it in differences(room / "unpacked" / PLACE, page))
    if chromium():
        try:
            found.check(f"package: {it}" for it in opened_faults(room / "unpacked" / PLACE, built is not None))
        except BrowserFault as fault:
            found.check([f"package: {fault}"])
    # A page of a program before this one is left where it is.
    later = (page / MODULE).stat().st_mtime + LATER
    os.utime(made, (later, later))
    ran(tree / "install", "--destdir", room / "later", *words, "/usr")
    is_there = (room / "later" / PLACE).exists()
    found.check(["./install: it copies the page of another program"] if is_there else [])
    return found

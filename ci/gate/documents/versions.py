"""The version, and that of the toolchain: each page that names one names the same."""
import functools
import re
import shutil
import subprocess
from collections.abc import Iterator

from gate.documents.pages import SERVICE_MAN, Tree

SECONDS = 180
NEWEST = re.compile(r"^## (\d+\.\d+\.\d+) \(\d{4}-\d\d-\d\d\)$", re.M)
HEAD = re.compile(r'^\.TH \S+ [15] \d{4}-\d\d-\d\d "prefork ([^"]*)"', re.M)
README = re.compile(r"\bPrefork (\d+\.\d+\.\d+)\b")
# The toolchain with which all was proved and built. Kits of one logic judge proofs alike.
KIT = re.compile(r"`rattle-kit-\S+ (logic [0-9a-f]+)`")
KIT_PAGES = ("README.md", "docs/PROVED.md")


@functools.cache
def logic() -> str | None:
    """The logic that `rt version` prints; None without that command."""
    if not shutil.which("rt"):
        return None
    ended = subprocess.run(["rt", "version"], stdin=subprocess.DEVNULL, capture_output=True, text=True, timeout=SECONDS)
    return ended.stdout.strip().partition(" ")[2]


def faults(tree: Tree) -> Iterator[str]:
    """Pages of another version than the newest section of the changes, or of none, and of another logic."""
    newest = NEWEST.search(tree.text("CHANGELOG.md"))
    if not newest:
        yield "CHANGELOG.md: no section of a version with its date"
        return
    manuals = {path for pattern in ("docs/*.[15]", *SERVICE_MAN) for path in tree.root.glob(pattern)}
    pages = [(path, HEAD) for path in sorted(str(it.relative_to(tree.root)) for it in manuals)]
    for path, pattern in [("README.md", README), *pages]:
        found = pattern.search(tree.text(path))
        if not found or found[1] != newest[1]:
            yield f"{path}: the version is {found[1] if found else 'missing'}, and not {newest[1]}"
    for path in KIT_PAGES:
        named = set(KIT.findall(tree.text(path)))
        if len(named) != 1 or logic() not in (None, *named):
            yield f"{path}: the toolchain has {', '.join(sorted(named)) or 'no logic'}, and not {logic()}"

"""The edits that the prover must refuse: each can still be applied to the sources as they are.

That takes a moment. The prover tries an edit many minutes later, and a sample of them at a time, so that one which an
earlier commit has broken would be found by a later one.
"""
import pathlib
from collections.abc import Iterator

from gate.documents.pages import Tree

EDITS = "crates/*/must-fail/*.edit"
KEYS = ("file", "old", "new")


def steps(text: str) -> Iterator[tuple[str, str, str]]:
    """The steps of an edit: a file, an old text and the new one. A file counts until another one is named."""
    found: dict[str, str] = {}
    for line in text.splitlines():
        key, separator, value = line.partition(": ")
        if not separator and line.endswith(":"):
            key, value = line[:-1], ""
        if key not in KEYS:
            raise ValueError(f"a line other than {', '.join(KEYS)}: {line[:40]!r}")
        found[key] = value
        if key == "new":
            yield found["file"], found["old"], value


def edit_faults(crate: pathlib.Path, text: str) -> Iterator[str]:
    """Why an edit can't be applied: an old text that is not in its file exactly once, or a new one that changes nothing."""
    files: dict[str, str] = {}
    for name, old, new in steps(text):
        path = crate / name
        if not path.is_file():
            yield f"no file {name}"
            return
        now = files.get(name, path.read_text())
        if now.count(old) != 1 or old == new:
            yield f"{name} has {now.count(old)} times {old[:60]!r}" if old != new else f"it changes nothing in {name}"
            return
        files[name] = now.replace(old, new)


def faults(tree: Tree) -> Iterator[str]:
    """Edits that can't be applied."""
    for path in tree.paths(EDITS):
        try:
            found = list(edit_faults(tree.root / pathlib.Path(path).parent.parent, tree.text(path)))
        except (ValueError, KeyError) as fault:
            found = [str(fault)]
        yield from (f"{path}: {fault}" for fault in found)

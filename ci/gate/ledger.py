"""The ledger of edits that were refused: ci/refused.

A line for each crate: its name and a key, a sum of all that the verdicts on its edits rest on. At that very text every
edit of the crate was refused, but for those that the line names after the word `but`: these a run left untried.
"""
import hashlib
import os
import pathlib
from collections.abc import Iterable

from gate import kit

HEAD = """\
# CRATE KEY [but EDIT..]: at the text of this key the prover refused every edit of the crate, but those that are named.
# ci/test writes this file; docs/testing/edits.md says what a key is made of.
"""


def key(built: kit.Built, edits: str) -> str:
    """A sum of the toolchain, of how edits are judged, of the crate and its edits, and of what the libraries below it
    state."""
    total = hashlib.sha256(kit.identity() + repr(built.of_kit()).encode())
    here = pathlib.Path(__file__).parent
    for judge in ("kit.py", "refusals.py"):
        total.update((here / judge).read_bytes())
    folders = [f"{built.folder}/{part}" for part in kit.PARTS]
    for folder in [*folders, edits, *built.rests_on()]:
        for path in files_below(folder):
            content = hashlib.sha256(path.read_bytes()).hexdigest()
            total.update(f"{path.relative_to(folder)} {content}\n".encode())
        total.update(b"\n")
    return total.hexdigest()[:32]


def files_below(folder: str) -> list[pathlib.Path]:
    return sorted(pathlib.Path(at) / name for at, _, names in os.walk(folder) for name in names)


class Ledger:
    """The lines of the file, by crate."""

    def __init__(self, path: str | pathlib.Path) -> None:
        self.path, self.keys, self.left = pathlib.Path(path), dict[str, str](), dict[str, set[str]]()
        text = self.path.read_text() if self.path.exists() else ""
        for line in text.splitlines():
            words = line.partition("#")[0].split()
            if len(words) == 2 or len(words) > 3 and words[2] == "but":
                self.keys[words[0]] = words[1]
                self.left[words[0]] = set(words[3:])

    def fits(self, name: str, key: str | None) -> bool:
        return self.keys.get(name) == key

    def note(self, name: str, key: str, left: Iterable[str]) -> None:
        """Says that at this key all edits of the crate were refused but those left."""
        self.keys[name], self.left[name] = key, set(left)

    def drop(self, names: Iterable[str]) -> None:
        """Forgets crates that have no edits any more, or of which one was not refused."""
        for name in names:
            self.keys.pop(name, None)
            self.left.pop(name, None)

    def write(self) -> None:
        rows = []
        for name, key in sorted(self.keys.items()):
            left = sorted(self.left[name])
            rows.append(" ".join([name, key, *(["but", *left] if left else [])]) + "\n")
        text = HEAD + "".join(rows)
        if not self.path.exists() or self.path.read_text() != text:
            self.path.write_text(text)

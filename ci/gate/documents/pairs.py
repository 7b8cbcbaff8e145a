"""Pairs such as `Edge::tick`: the second name is in the crate, module, type or trait that the first one names."""
import functools
import pathlib
import re
from collections.abc import Iterator

from gate.documents.pages import SERVICE, Tree, line_of, without_blocks

PAIR = re.compile(r"`(\w+)::(\w+)(?:\([^`]*\))?`")
# What begins the body of a type, a trait or an implementation, up to the brace at the start of a line that ends it.
BODY = re.compile(r"^(?:pub(?:\([a-z]+\))? )?(?:impl|trait|enum|struct|mod)\b([^;{]*)\{(.*?)^\}", re.M | re.S)
# Names of std's, which no file of the tree declares.
OF_STD = {"Vec", "Box", "String", "Option", "Result", "None", "std", "core"}


@functools.cache
def sources(root: pathlib.Path) -> dict[str, str]:
    """The sources of each crate, and of all files of a name, which are modules."""
    found: dict[str, str] = {}
    for path in sorted(root.glob("crates/*/src/**/*.rt")):
        crate = path.relative_to(root / "crates").parts[0]
        for name in (crate, path.stem):
            found[name] = found.get(name, "") + path.read_text()
    return found


@functools.cache
def members(root: pathlib.Path) -> dict[str, str]:
    """The bodies of what has a name of its own, by that name: of a type all of its implementations."""
    found: dict[str, str] = {}
    for text in sources(root).values():
        for head, body in BODY.findall(text):
            for name in set(re.findall(r"\b[A-Z]\w*", head)):
                found[name] = found.get(name, "") + body
    return found


def is_pair(root: pathlib.Path, first: str, second: str) -> bool:
    """Whether a crate, a module, a type or a trait of the first name has something of the second."""
    holders = [texts[first] for texts in (sources(root), members(root)) if first in texts]
    declared = rf"\b{second}\b" if second[0].isupper() else rf"\b(?:fn|mod|use .*) {second}\b|^ *(?:pub )?{second}:"
    return any(re.search(declared, text, re.M) for text in holders)


def faults(tree: Tree) -> Iterator[str]:
    """Pairs of which the first has no such second."""
    for path, text in tree.markdown(*SERVICE):
        prose = without_blocks(text)
        for found in PAIR.finditer(prose):
            if found[1] not in OF_STD and not is_pair(tree.root, found[1], found[2]):
                yield f"{path}:{line_of(prose, found.start())}: {found[1]} has no {found[2]}"

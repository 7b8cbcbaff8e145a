"""What pages say is proved: each clause that they name is in the specs or the contracts of the tree."""
import functools
import pathlib
import re
from collections.abc import Iterator

from gate.documents.pages import Tree

# A definition or a field in a file of specs, and a named clause, function or type in a source.
NAME = r"([A-Za-z_][A-Za-z0-9_]*)"
DEFINED = re.compile(rf"^ *(?:(?:abbrev|opaque|unfoldable|pub|record|data) )+{NAME}|^ *{NAME} :", re.M)
CLAUSE = re.compile(r"\b(?:ensures|requires) ([a-z_][a-z0-9_]*) \{")
FUNCTION = re.compile(r"\b(?:fn|struct|enum|trait|type|const) ([A-Za-z_][A-Za-z0-9_]*)")
IMPORTED = re.compile(r"\buse Rattle\.[\w.]+\.\{([^}]*)\}")
GHOST = re.compile(r"\bghost ([a-z_]+):")
VARIANT = re.compile(r"^    ([A-Z][A-Za-z0-9]*)(?:\(.*\))?,$", re.M)
# A list of names in parentheses: what a bullet cites.
CITED = re.compile(r"\(((?:`[^`]+`(?:, )?)+)\)")
CODE = re.compile(r"[A-Z]\d+")
# What the page of a crate says that has no contract beyond what holds everywhere.
NO_MORE = "- Every function is safe and ends, as everywhere; nothing more."
# The same of a crate without a function.
ONLY_LEMMAS = "- Lemmas alone, in `proofs/`: no contract cites them."
# The index of the crates, and the pages that cite clauses.
INDEX = "docs/proved/crates.md"
CITING = ("docs/PROVED.md", "docs/children/proved.md")
BULLET = re.compile(r"^- .*$", re.M)


@functools.cache
def clauses(root: pathlib.Path) -> frozenset[str]:
    """All names that a page can cite for a proof."""
    found: set[str] = set()
    for path in root.glob("crates/*/specs/**/*"):
        if path.is_file():
            text = path.read_text()
            found.update(name for pair in DEFINED.findall(text) for name in pair if name)
            found.update(imported(text))
    for path in root.glob("crates/*/src/**/*.rt"):
        text = path.read_text()
        for pattern in (CLAUSE, FUNCTION, GHOST, VARIANT):
            found.update(pattern.findall(text))
        found.update(imported(text))
    return frozenset(found)


def imported(text: str) -> Iterator[str]:
    """The names that a file takes from the library of the toolchain and from other crates."""
    for names in IMPORTED.findall(text):
        yield from (name.strip() for name in names.split(","))


@functools.cache
def own_words(folder: pathlib.Path) -> frozenset[str]:
    """The words of a crate's contracts: those of its sources and specs."""
    found: set[str] = set()
    for path in (*folder.glob("src/**/*.rt"), *folder.glob("specs/**/*.antt")):
        found.update(re.findall(r"[A-Za-z_][A-Za-z0-9_]*", path.read_text()))
    return frozenset(found)


def section(text: str, title: str) -> str:
    """What is below a heading of the second level, or nothing."""
    found = re.search(rf"^## {re.escape(title)}\n(.*?)(?=^## |\Z)", text, re.M | re.S)
    return found[1] if found else ""


def cited(text: str) -> Iterator[str]:
    """The names that a text cites in parentheses."""
    for group in CITED.findall(text):
        yield from (name for name in re.findall(r"`([^`]+)`", group) if re.fullmatch(r"[A-Za-z_][A-Za-z0-9_]*", name))


def crate_faults(tree: Tree, name: str) -> Iterator[str]:
    """What is wrong with the page of a crate."""
    path = f"crates/{name}/README.md"
    if not (tree.root / path).exists():
        yield f"{path}: missing"
        return
    text = tree.text(path)
    for title in ("Proved", "Tested only", "Neither"):
        if not BULLET.search(section(text, title)):
            yield f"{path}: no list below '## {title}'"
    known = clauses(tree.root) & own_words(tree.root / "crates" / name)
    for bullet in BULLET.findall(section(text, "Proved")):
        names = list(cited(bullet))
        if not names and bullet not in without_names(tree.root / "crates" / name):
            yield f"{path}: no clause is named by '{bullet[:60]}'"
        yield from (f"{path}: no clause of {name} is named {clause}" for clause in names if clause not in known)


def without_names(folder: pathlib.Path) -> set[str]:
    """What the page of a crate may say is proved without the name of a clause."""
    has_functions = any(re.search(r"\bfn ", path.read_text()) for path in folder.glob("src/**/*.rt"))
    return {NO_MORE} if has_functions else {NO_MORE, ONLY_LEMMAS}


def faults(tree: Tree) -> Iterator[str]:
    """Claims of a proof that no clause has, and crates without a page."""
    index = tree.text(INDEX)
    for crate in sorted(path.name for path in tree.root.glob("crates/*") if path.is_dir()):
        yield from crate_faults(tree, crate)
        if f"(../../crates/{crate}/README.md)" not in index:
            yield f"{INDEX}: no line for {crate}"
    crates = {path.name for path in tree.root.glob("crates/*")}
    for path in CITING:
        for clause in cited(tree.text(path)):
            if clause not in clauses(tree.root) | crates and not CODE.fullmatch(clause):
                yield f"{path}: no clause is named {clause}"

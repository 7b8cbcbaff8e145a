"""Where to change what: the page names each place that lists the calls of a master, or the words of an operator.

A source that names most calls is one that a new call changes, and so it is with words. It is named by itself or, if it
is one of a crate, by that crate.
"""
import dataclasses
import pathlib
import re
from collections.abc import Iterator

from gate.documents.pages import Tree

PAGE = "docs/architecture/changes.md"
SOURCES = ("crates/*/src/**/*.rt", "crates/*/specs/**/*.antt", "service/prefork_service/*.py", "service/native/*.c",
           "service/completions/*", "service/man/*.1", "completions/*", "docs/*.1", "page/*.js", "tests/reader/*.py",
           "ci/[a-z]*", "ci/*/*.py")
# Tests and measurements are found by what fails, and this check names what it looks for.
LEFT_OUT = re.compile(r"crates/(?:tests_of_|bench_)|ci/gate/|ci/refused")
NAME = re.compile(r"[A-Za-z][A-Za-z0-9]*(?:[-_][a-z0-9]+)*")
# The part of all names that a list has.
MOST = 0.72


@dataclasses.dataclass(frozen=True)
class Kind:
    """What is listed: the type whose variants have the names, and how the paragraph on a new one begins."""

    source: str
    begins: str


KINDS = (
    Kind("crates/vocabulary/src/calls.rt", "**A new call.**"),
    Kind("crates/control_words/src/words.rt", "**A new word.**"),
)


def variants(text: str) -> list[str]:
    """The variants of the first public type of a source."""
    body = re.search(r"^pub enum \w+ \{(.*?)^\}", text, re.M | re.S)
    return re.findall(r"^    ([A-Z]\w*)", body[1], re.M) if body else []


def spellings(variant: str) -> set[str]:
    """How a variant is written: as it is, and with small letters, hyphens, underscores or capitals."""
    parts = re.findall(r"[A-Z][a-z0-9]*", variant.removesuffix("At"))
    words = {"-".join(parts).lower(), "_".join(parts).lower(), "".join(parts).upper()}
    return {variant, *words}


def is_named(paragraph: str, path: pathlib.Path) -> bool:
    """Whether a paragraph names a source, or its crate."""
    names = {path.parts[1]} if path.parts[0] == "crates" else {path.name, str(path)}
    return any(re.search(rf"(?<![\w/-]){re.escape(name)}(?![\w-])", paragraph) for name in names)


def faults(tree: Tree) -> Iterator[str]:
    """Sources that list calls or words and that the page does not name."""
    paragraphs = tree.text(PAGE).split("\n\n")
    for kind in KINDS:
        listed = [spellings(it) for it in variants((tree.root / kind.source).read_text())]
        paragraph = next((it for it in paragraphs if it.startswith(kind.begins)), "")
        if not listed or not paragraph:
            yield f"{PAGE}: no paragraph {kind.begins}, or no variants in {kind.source}"
        for path in sorted({found for pattern in SOURCES for found in tree.root.glob(pattern) if found.is_file()}):
            near = path.relative_to(tree.root)
            if LEFT_OUT.match(str(near)) or path.suffix == ".pyc":
                continue
            said = set(NAME.findall(path.read_text(errors="replace")))
            if sum(bool(it & said) for it in listed) >= MOST * len(listed) and not is_named(paragraph, near):
                yield f"{PAGE}: {kind.begins} does not name {near}, which lists them"

"""What the sources of crates declare: their functions and their types, as far as a text shows it."""
import re
from collections.abc import Iterator
from typing import NamedTuple

from gate.documents.pages import Tree, line_of

FUNCTION = re.compile(r"^( *)(?:pub(?:\([a-z]+\))? )?(?:const )?fn ([a-z_0-9]+)", re.M)
TYPE = re.compile(r"^(?:pub(?:\([a-z]+\))? )?(?:struct|enum|trait|union|type) ([A-Za-z0-9_]+)", re.M)
COMMENT = re.compile(r"//.*$", re.M)
CLOSING = {"(": ")", "<": ">", "[": "]", "{": "}"}


class Function(NamedTuple):
    """A function where it is declared. Its lines are those of its body."""

    name: str
    line: int
    parameters: int
    lines: int


def without_comments(text: str) -> str:
    """A source with its comments blanked."""
    return COMMENT.sub("", text)


def closed(text: str, start: int) -> int:
    """Where the bracket that opens at a place is closed."""
    depth = 0
    for place in range(start, len(text)):
        character = text[place]
        if character in CLOSING:
            depth += 1
        elif character in CLOSING.values() and text[place - 1:place + 1] != "->":
            depth -= 1
            if depth == 0:
                return place
    return len(text)


def parts(text: str) -> Iterator[str]:
    """The parts of a text between commas that are in no brackets."""
    start = place = 0
    while place < len(text):
        if text[place] in CLOSING:
            place = closed(text, place)
        elif text[place] == ",":
            yield text[start:place]
            start = place + 1
        place += 1
    yield text[start:]


def parameters_behind(text: str, place: int) -> int:
    """How many parameters the function has whose name ends at a place."""
    if text[place] == "<":
        place = closed(text, place) + 1
    inside = text[place + 1:closed(text, place)]
    return sum(1 for part in parts(inside) if part.strip())


def lines_of(text: str, place: int, indent: str) -> int:
    """How many lines the body of a function has that is declared at a place; one without a body has none."""
    begun = re.compile(rf"^{indent}\{{$|\{{$|;$", re.M).search(text, place)
    if begun is None or begun[0] == ";":
        return 0
    ended = text.find(f"\n{indent}}}\n", begun.end())
    return max(0, text.count("\n", begun.end(), ended))


def functions(text: str) -> Iterator[Function]:
    """The functions of a source."""
    plain = without_comments(text)
    for found in FUNCTION.finditer(plain):
        count = parameters_behind(plain, found.end())
        yield Function(found[2], line_of(plain, found.start()), count, lines_of(plain, found.end(), found[1]))


def types(text: str) -> Iterator[str]:
    """The types that a source declares."""
    yield from TYPE.findall(without_comments(text))


def crates(tree: Tree) -> Iterator[tuple[str, dict[str, str]]]:
    """Each crate, with its sources by their paths."""
    for folder in sorted(path for path in (tree.root / "crates").iterdir() if (path / "src").is_dir()):
        names = sorted(str(path.relative_to(tree.root)) for path in folder.glob("src/**/*.rt"))
        yield folder.name, {name: tree.text(name) for name in names}

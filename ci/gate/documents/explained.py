"""What `prefork explain` says of each code, answer, outcome and note: what was found, and what to do about it."""
import functools
import itertools
import re
import subprocess
from collections.abc import Iterator

from gate.documents.pages import Tree
from gate.documents.shape import cells

SECONDS = 180
# The lines of a terminal, less what `--why` puts before each of them.
COLUMNS = 80
INDENT = 4
# All that it prints of each, one after another with an empty line between them.
GOLDEN = "tests/explanations.txt"
# Tables whose words are explained, by their first cells: the page, and the column that has the words.
TABLES = {
    "| fault |": ("docs/FORMATS.md", 0),
    "| call |": ("docs/formats/blocks.md", 1),
    "| outcome |": ("docs/formats/blocks.md", 0),
    "| note |": ("docs/formats/blocks.md", 0),
}


def answer(program: str, *words: str) -> str:
    """What the program prints where it is asked to explain."""
    command = [program, "explain", *words]
    ended = subprocess.run(command, stdin=subprocess.DEVNULL, capture_output=True, text=True, timeout=SECONDS)
    return ended.stdout


@functools.cache
def pages(program: str) -> dict[str, tuple[str, str]]:
    """What the program prints of each that it lists: the line of the list, and the page."""
    lines = [line for line in answer(program).splitlines() if line.strip()]
    return {line.split()[0]: (line, answer(program, line.split()[0])) for line in lines}


def words_of(tree: Tree, heading: str) -> Iterator[str]:
    """The first words of what is in back-ticks in a column of a table."""
    path, column = TABLES[heading]
    rows = tree.text(path).partition(f"\n{heading}")[2].partition("\n\n")[0].splitlines()[2:]
    for row in rows:
        yield from (span.split()[0] for span in re.findall(r"`([^`]+)`", cells(row)[column]))


def page_faults(name: str, line: str, page: str) -> Iterator[str]:
    """What is wrong with one explanation."""
    head, _, remedy = page.partition("\n\n")
    if head != f"{name}: {line[len(name):].strip()}":
        yield f"explain {name} does not begin with the line of the list: {head!r}"
    if not remedy.strip():
        yield f"explain {name} does not say what to do"
    for text in (line, *page.splitlines()):
        if len(text) > COLUMNS - (0 if text in (line, head) else INDENT):
            yield f"explain {name} has a line of {len(text)} columns: {text[:40]}.."


def golden_faults(tree: Tree) -> Iterator[str]:
    """The first line in which the explanations are not those of the file."""
    wanted = tree.text(GOLDEN).splitlines()
    printed = "\n".join(page for _, page in pages(tree.program).values()).splitlines()
    for number, (want, have) in enumerate(itertools.zip_longest(wanted, printed), 1):
        if want != have:
            yield f"{GOLDEN}: line {number} is {want!r}, and explain prints {have!r}"
            return


def faults(tree: Tree) -> Iterator[str]:
    """Explanations that lack something, and words of the formats that have none."""
    known = pages(tree.program)
    yield from golden_faults(tree)
    for name, (line, page) in known.items():
        yield from page_faults(name, line, page)
    for heading, (path, _) in TABLES.items():
        words = set(words_of(tree, heading))
        if not words:
            yield f"{path}: no table begins with {heading}"
        for word in sorted(words - set(known)):
            yield f"{path}: explain does not know {word}"

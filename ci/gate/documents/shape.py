"""The shape of pages: short cells of tables, pages that are read in ten minutes, and help that fits on a screen."""
from collections.abc import Iterator

from gate.documents.pages import HELP, SERVICE, Tree, without_blocks

MOST_CELL = 200
# What is read in ten minutes, at 200 words a minute.
MOST_WORDS = 2_000
# The README is a screen and a tour.
MOST_LINES = {"README.md": 120}
# What help has at most.
SCREEN_LINES, SCREEN_COLUMNS = 40, 80


def cells(line: str) -> list[str]:
    """The cells of a row of a table, where a bar in back-ticks does not end a cell."""
    found, is_code = [""], False
    for character in line.strip().strip("|"):
        is_code ^= character == "`"
        if character == "|" and not is_code:
            found.append("")
        else:
            found[-1] += character
    return [cell.strip() for cell in found]


def table_faults(tree: Tree) -> Iterator[str]:
    """Cells of tables that are too long."""
    for path, text in tree.markdown(*SERVICE):
        for number, line in enumerate(without_blocks(text).split("\n"), 1):
            if line.startswith("|"):
                for cell in cells(line):
                    if len(cell) > MOST_CELL:
                        yield f"{path}:{number}: a cell of {len(cell)} characters: {cell[:40]}.."


def length_faults(tree: Tree) -> Iterator[str]:
    """Pages that take more than ten minutes to read."""
    for path, text in tree.markdown(*SERVICE):
        words = len(text.split())
        if words > MOST_WORDS:
            yield f"{path}: {words} words, more than {MOST_WORDS}: split it"
        lines = text.count("\n")
        if lines > MOST_LINES.get(path, lines):
            yield f"{path}: {lines} lines, more than {MOST_LINES[path]}"


def screen_faults(tree: Tree) -> Iterator[str]:
    """Help that does not fit on a screen."""
    for path in tree.paths(HELP):
        lines = tree.text(path).rstrip("\n").split("\n")
        if len(lines) > SCREEN_LINES:
            yield f"{path}: {len(lines)} lines, more than {SCREEN_LINES}"
        for number, line in enumerate(lines, 1):
            if len(line) > SCREEN_COLUMNS:
                yield f"{path}:{number}: {len(line)} columns, more than {SCREEN_COLUMNS}"

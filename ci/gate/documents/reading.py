"""How long the definitions are, as the page says that tells in which order to read them."""
import re
from collections.abc import Iterator

from gate.documents.pages import Tree
from gate.documents.shape import cells

PAGE = "docs/DEFINITIONS.md"
# Each table of files, and the sentence after it, where one says what they are together.
HEADING = "| file | what it has | lines | minutes |"
SUM = re.compile(r"^That is ([\d,]+) lines, or (\d+) minutes\b")
FILE = re.compile(r"`(\w+\.antt)`(?: of `(\w+)`)?")
# How many lines are read in a minute.
PACE = 22
# What the headline rests on is read in an hour; and a line fits in an editor.
MOST_LINES = 1_400
MOST_COLUMNS = 120


def minutes(lines: int) -> int:
    return round(lines / PACE)


def column_faults(path: str, lines: list[str]) -> Iterator[str]:
    for number, line in enumerate(lines, 1):
        if len(line) > MOST_COLUMNS:
            yield f"{path}:{number}: {len(line)} columns, more than {MOST_COLUMNS}"


def table_faults(tree: Tree, table: str, after: str) -> Iterator[str]:
    """What is wrong with the numbers of one table, and with those of all its files together."""
    total = 0
    for row in table.splitlines()[2:]:
        name, _, lines, time = cells(row)
        file = FILE.fullmatch(name)
        if file is None:
            yield f"{PAGE}: {name} is no file of specs"
            continue
        path = f"crates/{file[2] or 'definitions'}/specs/{file[1]}"
        text = tree.text(path).splitlines()
        if (lines, time) != (str(len(text)), str(minutes(len(text)))):
            yield f"{PAGE}: {path} has {len(text)} lines, which are read in {minutes(len(text))} minutes"
        total += len(text)
        yield from column_faults(path, text if file[2] is None else [])
    said = SUM.match(after)
    if said and (said[1], said[2]) != (f"{total:,}", str(minutes(total))):
        yield f"{PAGE}: the files of a table have {total:,} lines, which are read in {minutes(total)} minutes"


def faults(tree: Tree) -> Iterator[str]:
    parts = tree.text(PAGE).split(f"\n{HEADING}\n")[1:]
    for place, part in enumerate(parts):
        table, _, after = part.partition("\n\n")
        yield from table_faults(tree, f"{HEADING}\n{table}", after)
        said = SUM.match(after)
        if place == 0 and (said is None or int(said[1].replace(",", "")) > MOST_LINES):
            yield f"{PAGE}: the first table is what the headline rests on, and it has at most {MOST_LINES:,} lines"
    if len(parts) != 3:
        yield f"{PAGE}: there are {len(parts)} tables of files, and not 3"

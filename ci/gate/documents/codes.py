"""The codes of faults and refusals: the same in `prefork explain` and in the pages of formats."""
import functools
import re
import subprocess
from collections.abc import Iterator

from gate.documents.pages import Tree

SECONDS = 180
CODE = re.compile(r"\b[A-Z]\d{1,2}\b")
PAGES = ("docs/FORMATS.md", "docs/formats/configuration.md", "docs/formats/blocks.md", "docs/formats/plans.md")


@functools.cache
def explained(program: str) -> frozenset[str]:
    """The codes that the program explains."""
    command = [program, "explain"]
    ended = subprocess.run(command, stdin=subprocess.DEVNULL, capture_output=True, text=True, timeout=SECONDS)
    return frozenset(line.split()[0] for line in ended.stdout.splitlines() if line.strip())


def faults(tree: Tree) -> Iterator[str]:
    """Codes that the program explains and the pages do not have, or the other way round."""
    known = {code for code in explained(tree.program) if CODE.fullmatch(code)}
    if not known:
        yield f"{tree.program} explain lists no code"
    spans = {path: " ".join(re.findall(r"`([^`\n]+)`", tree.text(path))) for path in PAGES}
    listed = {code: path for path in PAGES for code in CODE.findall(spans[path])}
    for code in sorted(known - set(listed)):
        yield f"{PAGES[0]}: the code {code} is missing"
    for code in sorted(set(listed) - known):
        yield f"{listed[code]}: no code {code}"

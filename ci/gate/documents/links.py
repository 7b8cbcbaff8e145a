"""Links between pages: their files and headings are there."""
import re
from collections.abc import Iterator

from gate.documents.pages import SERVICE, Tree, line_of, without_blocks

LINK = re.compile(r"\]\(([^)\s]+)\)")


def anchor(heading: str) -> str:
    """The anchor of a heading: small letters, digits, hyphens and low lines, with a hyphen for each space."""
    kept = re.sub(r"[^\w\- ]", "", heading.strip().lower())
    return kept.replace(" ", "-")


def anchors(text: str) -> set[str]:
    """The anchors of a page."""
    return {anchor(heading) for heading in re.findall(r"^#+ (.*)$", without_blocks(text), re.M)}


def faults(tree: Tree) -> Iterator[str]:
    """Links that lead nowhere."""
    for path, text in tree.markdown(*SERVICE):
        for link in LINK.finditer(without_blocks(text)):
            target, _, heading = link[1].partition("#")
            if re.match(r"[a-z]+:", target):
                continue
            file = (tree.root / path).parent / target if target else tree.root / path
            place = f"{path}:{line_of(text, text.find(link[0]))}"
            if not file.exists():
                yield f"{place}: no file {target}"
            elif heading and heading not in anchors(text if not target else file.read_text()):
                yield f"{place}: no heading #{heading} in {target or path}"

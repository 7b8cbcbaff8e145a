"""The glossaries: a page that says a word of ours leads to what the word means."""
import re
from collections.abc import Iterator

from gate.documents.pages import SERVICE, Tree, without_code

OPERATORS, READERS = "docs/GLOSSARY.md", "docs/definitions/glossary.md"
LEADS = re.compile(r"\]\([^)\s]*(?:GLOSSARY|glossary)\.md\)")
ROW = re.compile(r"^\| ([a-z, -]+) \|", re.M)
# Words that other programs have too, and that mean here what a reader expects.
PLAIN = {"address", "call", "cause", "done", "draining", "end", "entry", "event", "executable", "fate", "floor", "hold",
         "image", "loss", "lost", "manner", "master", "moment", "old", "pattern", "plan", "record", "refused", "report",
         "section", "short", "side", "table", "target", "turn", "weave", "word", "worker", "exact", "preload", "shim",
         "certify", "block", "draft", "cursor", "edge", "posts", "settle", "standing", "stance", "lifeline"}
# These pages are led to from one that has the links: DECISIONS, CHANGELOG, and CONTRIBUTING for the crates.
LED_TO = ("docs/decisions/", "docs/changes/", "crates/", "CHANGELOG.md")


def words(tree: Tree, page: str) -> set[str]:
    """The words of a glossary that only we say."""
    told = {word.strip() for row in ROW.findall((tree.root / page).read_text()) for word in row.split(",")}
    return told - PLAIN - {"word"}


def faults(tree: Tree) -> Iterator[str]:
    """Pages that say such a word and lead to no glossary; and an order of a glossary that is not that of letters."""
    ours = words(tree, OPERATORS) | words(tree, READERS)
    said = re.compile(rf"\b(?:{'|'.join(map(re.escape, sorted(ours)))})s?\b")
    for path, text in tree.markdown(*SERVICE):
        if path in (OPERATORS, READERS):
            told = [row.split(",")[0] for row in ROW.findall(text)][1:]
            if told != sorted(told):
                wrong = next(word for word, right in zip(told, sorted(told)) if word != right)
                yield f"{path}: {wrong} is out of order"
        elif not path.startswith(LED_TO) and not LEADS.search(text) and (found := said.search(without_code(text))):
            yield f"{path}: '{found[0]}' is a word of ours: lead to {OPERATORS} or {READERS} where it is first said"

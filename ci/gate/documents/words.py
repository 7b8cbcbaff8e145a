"""Words that texts for people do not have: each was hard to read where it carried everything."""
import re
from collections.abc import Iterator

from gate.documents.pages import SAID, SCRIPTS, SERVICE, SERVICE_MAN, Tree, line_of, plain_man, without_code

# A pattern of what is not written, and what is written in its place. A space is any white space.
WORDS: dict[str, str] = {
    r"\bwants? (?:of|for) memory\b": "out of memory",
    r"\bwanting\b": "missing",
    r"\b(?:comes?|came|coming) to\b(?! rest| an end)": "ends with, results in, gives",
    r"\bbehind\b": "after",
    r"\bstands?\b(?! for\b| alone\b|-)": "is",
    r"\bso many\b": "the number of",
    r"(?<!there\s)\b(?:is|are) (?-i:none)\b": "invalid, missing, or the noun",
    r"\b(?:nobody|who) bears?\b|\bbears? (?:a|the|that) name\b": "has",
    r"\bpassed over\b": "ignored",
    r"\b(?:for|by|is|as|that) who(?:m|ever)?\b": "for those that, by the one that",
    r"\bwhoever\b": "the process that, anybody who",
    r"\bwho (?:has|wants?|quits?|reads?|knows?|changes?|edits?|believes?|drains?)\b": "the one that ..",
    r"\bsomebody else'?s?\b": "another process, a foreign process",
    r"\blooked after\b": "what is done",
    r"\bparted by\b": "separated by",
    r"\btakes? no signals?\b": "handles no signals",
    r"\bonce at most\b": "may be given once",
}
PATTERNS = (pattern.replace(" ", r"\s+") for pattern in WORDS)
FOUND = re.compile("|".join(f"(?P<w{at}>{pattern})" for at, pattern in enumerate(PATTERNS)), re.I)
INSTEAD = list(WORDS.values())
# This list, and the mistakes that are planted; the ledger, and two scripts on whose very text all of it depends.
LEFT_OUT = {"ci/gate/documents/words.py", "ci/gate/documents/mistakes.py", "ci/refused", "ci/gate/kit.py",
            "ci/gate/refusals.py"}
# The port of the definitions is read beside them, and has their sentences.
PORT = "tests/reader/"


def is_script(tree: Tree, path: str) -> bool:
    """Whether the words of a file are looked at: all but pictures, pages, and those that are left out."""
    file = tree.root / path
    is_read = path not in LEFT_OUT and not path.startswith(PORT) and file.suffix not in (".md", ".svg", ".pyc")
    return is_read and file.is_file()


def faults(tree: Tree) -> Iterator[str]:
    """Where a page has such a word."""
    pages = [(path, without_code(text)) for path, text in tree.markdown(*SERVICE)]
    pages += [(path, plain_man(text)) for path, text in tree.man(*SERVICE_MAN)]
    pages += [(path, tree.text(path)) for path in tree.paths(*SAID)]
    pages += [(path, tree.text(path)) for path in tree.paths(*SCRIPTS) if is_script(tree, path)]
    for path, text in pages:
        for found in FOUND.finditer(text):
            instead = INSTEAD[int((found.lastgroup or "w0")[1:])]
            yield f"{path}:{line_of(text, found.start())}: '{found[0]}': write {instead}"

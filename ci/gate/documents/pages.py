"""The pages that are checked, as files or with a mistake planted in one of them."""
import dataclasses
import functools
import pathlib
import re
from collections.abc import Iterator

# The pages for people: patterns below the top of the repository.
MARKDOWN = ("*.md", "docs/**/*.md", "crates/*/README.md", "examples/README.md", "page/README.md", "library/README.md")
MAN = ("docs/*.1", "docs/*.5")
# Those of the service, of which a check names the ones that it reads too.
SERVICE = ("service/**/*.md", "fleet/*.md")
SERVICE_MAN = ("service/man/*.1",)
CONVENTION = ("service/man/prefork-child.1",)
# What --help prints, as ci/cases compares it with the program, and the sentences of `prefork explain`.
HELP = "tests/cases/help/help_of_*/stdout"
SAID = (HELP, "crates/code_explanations/src/*.rt")
# Programs and scripts: their first lines and their messages are for operators, and their comments for their readers.
SCRIPTS = ("try", "prefork", "install", "package", ".githooks/*", "ci/[a-z]*", "ci/*/*.py", "ci/gate/documents/*.py", "bench/*",
           "examples/*", "completions/*", "fleet/**/*.y*ml", "service/bin/*", "service/build", "service/install",
           "service/completions/*", "service/prefork_service/*.py", "service/native/*", "service/double/*",
           "service/tests/**/*.py", "service/units/*", "service/containers/*", "service/examples/*", "tests/**/*.py")
FENCE = re.compile(r"^```.*?^```$", re.M | re.S)


@dataclasses.dataclass(frozen=True)
class Tree:
    """A tree of files, in which some pages may have another text than the file."""

    root: pathlib.Path
    program: str
    # A page with another text than its file, which is then the only one that is read page by page.
    planted: tuple[str, str] | None = None

    def text(self, path: str) -> str:
        """The text of a page, by its path from the top."""
        if self.planted and self.planted[0] == path:
            return self.planted[1]
        return (self.root / path).read_text()

    def with_mistake(self, path: str, right: str, wrong: str) -> "Tree":
        """The same tree with a mistake in one page. What is replaced must be there."""
        text = self.text(path)
        if right not in text:
            raise ValueError(f"{path} does not have {right!r}")
        return dataclasses.replace(self, planted=(path, text.replace(right, wrong, 1)))

    def paths(self, *patterns: str) -> Iterator[str]:
        """The files that fit one of the patterns, each once and in order."""
        found = {path for pattern in patterns for path in self.root.glob(pattern)}
        names = sorted(str(path.relative_to(self.root)) for path in found)
        yield from (name for name in names if not self.planted or name == self.planted[0])

    def markdown(self, *more: str) -> Iterator[tuple[str, str]]:
        """Each page in Markdown, with its text, and those of more patterns."""
        for path in self.paths(*MARKDOWN, *more):
            yield path, self.text(path)

    def man(self, *more: str) -> Iterator[tuple[str, str]]:
        """Each man page, with its text, and those of more patterns."""
        for path in self.paths(*MAN, *more):
            yield path, self.text(path)


def without_blocks(text: str) -> str:
    """A page in Markdown with its fenced blocks blanked, line for line."""
    return FENCE.sub(lambda block: "\n" * block[0].count("\n"), text)


def without_code(text: str) -> str:
    """The same without what is in back-ticks and without the targets of links."""
    prose = re.sub(r"`[^`\n]*`", "", without_blocks(text))
    return re.sub(r"\]\([^)]*\)", "]", prose)


@functools.cache
def plain_man(text: str) -> str:
    """A man page without its escapes for fonts and characters."""
    text = re.sub(r"\\f[A-Z]", "", text)
    for escape, plain in ((r"\-", "-"), (r"\(aq", "'"), (r"\(dq", '"'), (r"\(bu", "*"), (r"\ ", " "), (r"\e", "\\")):
        text = text.replace(escape, plain)
    return text


def line_of(text: str, place: int) -> int:
    """The number, from 1, of the line that has this character."""
    return text.count("\n", 0, place) + 1

"""The README's service, typed as it is: a reload that fails, beside gunicorn's own with the same file.

The README's blocks of `bash` are typed in a folder of their own, with the service as ./install installs it, and what they
print is compared with the page. Its blocks of `sh` are the program's alone: ci/documents types those.
"""
import pathlib
import re
import subprocess
import tempfile
from collections.abc import Iterator

from gate.tally import ROOT
from web.guides import ADDRESS, HELLO, Reader

PAGE = "README.md"
# What waits for the first answer, and how it waits here: a busy machine starts a service more slowly than an operator's.
WAITS, LONGER = "--wait serves", "--wait serves --seconds 90"
FILE = re.compile(r"^```python\n(.*?)^```$", re.M | re.S)
TYPED = re.compile(r"^```bash\n(.*?)^```\n(?=(?:\n```\n(.*?)^```$)?)", re.M | re.S)


class ReaderOfFirstPage(Reader):
    """Somebody who follows the README."""

    def __init__(self, path: str, room: pathlib.Path):
        super().__init__(PAGE, HELLO, path, room)

    def page_text(self) -> str:
        return (ROOT / PAGE).read_text().replace(ADDRESS, self.address).replace(WAITS, LONGER)

    def blocks(self) -> Iterator[tuple[str, str]]:
        """What is typed, with what the page says is printed."""
        return ((found[1], found[2]) for found in TYPED.finditer(self.page_text()))

    def follow(self) -> None:
        """Types the blocks in their order."""
        (self.room / "hello.py").write_text(FILE.findall(self.page_text())[0])
        for typed, printed in self.blocks():
            # (what the service says on standard error is not on the page)
            said = self.typed(f"{{ {typed.rstrip()}\n}} 2>/dev/null")
            if printed:
                self.expect(typed, f"\n{said}", f"\n{printed}")
            else:
                self.expect(typed, said, self.answer)
        self.expect("the old version", self.typed(f"curl --silent http://{self.address}/"), self.answer)


def faults(path: str) -> list[str]:
    """What is wrong with the README's service."""
    with tempfile.TemporaryDirectory(prefix="guides-") as room:
        reader = ReaderOfFirstPage(path, pathlib.Path(room))
        try:
            reader.follow()
            reader.stop()
        except (OSError, subprocess.TimeoutExpired, IndexError) as fault:
            reader.wrong.append(f"{PAGE}: {fault!r}")
        finally:
            reader.mark.end_all()
        return reader.wrong

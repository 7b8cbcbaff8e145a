"""The commands of README, of examples and of the man pages: they run as typed, and print what the page says."""
import dataclasses
import os
import pathlib
import re
import shutil
import subprocess
import tempfile
from collections.abc import Iterator
from typing import Any

from gate.documents.pages import CONVENTION, Tree, plain_man

SECONDS = 180
# The pages, and the folder of the tree in which each is read.
FOLDERS = {"README.md": ".", "examples/README.md": "examples"}
# Lines that are not run here, and why.
NOT_RUN = {"ci/test": "the gate, which runs this check"}
BLOCK = re.compile(r"^```(\w*)\n(.*?)^```\n(?=(?:\n```\n(.*?)^```$)?)", re.M | re.S)


@dataclasses.dataclass(frozen=True)
class Command:
    """What is typed, and what the page says is printed, if it does."""

    typed: str
    printed: str | None


def of_markdown(text: str) -> Iterator[Command]:
    """The commands of a page: each block of the shell, with the block of text that follows it at once."""
    for language, block, output in BLOCK.findall(text):
        lines = [line for line in block.split("\n") if line and not line.startswith("#") and line not in NOT_RUN]
        if language == "sh" and lines:
            yield Command("\n".join(lines), output or None)


def of_man(text: str) -> Iterator[Command]:
    """The commands of a man page: each line after a dollar in its examples, with the lines up to the next one."""
    examples = plain_man(text).partition("\n.SH EXAMPLES\n")[2].partition("\n.SH ")[0]
    for block in re.findall(r"^\.nf\n(.*?)^\.fi$", examples, re.M | re.S):
        for part in re.split(r"^\$ ", block, flags=re.M)[1:]:
            typed, _, printed = part.partition("\n")
            yield Command(typed, re.sub(r"^\\&", "", printed, flags=re.M) or None)


def lay_out(tree: Tree, room: pathlib.Path) -> dict[str, str]:
    """Makes a copy of the examples with the program, and gives the environment in which commands run."""
    shutil.copytree(tree.root / "examples", room / "examples")
    (room / "bin").mkdir()
    for name in ("prefork", "try", "bin/prefork"):
        (room / name).symlink_to(pathlib.Path(tree.program).resolve())
    return {**os.environ, "PATH": f"{room / 'bin'}:{os.environ['PATH']}", "LC_ALL": "C"}


def run(command: Command, folder: pathlib.Path, environment: dict[str, str]) -> Iterator[str]:
    """What a command does otherwise than its page says."""
    how: dict[str, Any] = {"stdin": subprocess.DEVNULL, "stdout": subprocess.PIPE, "stderr": subprocess.STDOUT, "text": True}
    words = ["bash", "-c", command.typed]
    try:
        ended = subprocess.run(words, cwd=folder, env=environment, timeout=SECONDS, errors="replace", **how)
    except subprocess.TimeoutExpired:
        yield f"still running after {SECONDS} seconds"
        return
    if ended.returncode == 2 or ended.returncode > 5:
        yield f"status {ended.returncode}: {ended.stdout.strip()[-200:]}"
    if command.printed is not None:
        yield from difference(command.printed.rstrip("\n").split("\n"), ended.stdout.rstrip("\n").split("\n"))


def difference(wanted: list[str], got: list[str]) -> Iterator[str]:
    """The first line in which two texts differ."""
    for number, (want, have) in enumerate(zip([*wanted, None], [*got, None]), 1):
        if want != have:
            yield f"line {number}: the page has {want!r}, the program prints {have!r}"
            return


def page_faults(tree: Tree, path: str, commands: list[Command], folder: str) -> Iterator[str]:
    """What the commands of one page do, one after another in one copy of the examples."""
    with tempfile.TemporaryDirectory(prefix="prefork-documents-") as made:
        room = pathlib.Path(made)
        environment = lay_out(tree, room)
        for command in commands:
            for fault in run(command, room / folder, environment):
                yield f"{path}: {command.typed.splitlines()[0]}: {fault}"


def faults(tree: Tree) -> Iterator[str]:
    """Commands that do not run, or print something else than their page says."""
    for path, text in tree.markdown():
        if path in FOLDERS:
            commands = list(of_markdown(text))
            if not commands:
                yield f"{path}: no command"
            yield from page_faults(tree, path, commands, FOLDERS[path])
    for path, text in tree.man(*CONVENTION):
        commands = list(of_man(text))
        if not commands:
            yield f"{path}: no example"
        for title in ("EXIT STATUS", "EXAMPLES"):
            if f"\n.SH {title}\n" not in text:
                yield f"{path}: no section {title}"
        yield from page_faults(tree, path, commands, "examples")

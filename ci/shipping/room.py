"""A part of the checks: its folder, the package that it is about, and what was wrong."""
import os
import pathlib
import shutil
import subprocess
import time
from typing import Any

from gate.tally import ROOT, Tally

# How long a command may take: lintian takes half a minute of a processor, and a busy machine twenty times as long.
SECONDS = 1200.0
SERVICE = ROOT / "service"
# The commands that were run, each with the seconds that it took.
TOOK: list[tuple[float, str]] = []
MOST_SHOWN = 5


class Missing(Exception):
    """The machine lacks what a part needs."""


class Room:
    """The folder of a part, and what was wrong."""

    def __init__(self, name: str, path: pathlib.Path, prefork: str, package: pathlib.Path | None):
        self.name, self.path, self.prefork, self.package = name, path, prefork, package
        self.tally, self.skipped = Tally(), list[str]()

    def check(self, what: str, holds: Any) -> None:
        self.tally.check([] if holds else [f"{self.name}: {what}"])

    def the_package(self) -> pathlib.Path:
        if not self.package:
            raise Missing("dpkg-deb is not on the path")
        return self.package


def needs(*commands: str) -> None:
    """Skips a part whose commands are not there."""
    for command in commands:
        if not shutil.which(command):
            raise Missing(f"{command} is not on the path")


def needs_root() -> None:
    if os.geteuid():
        raise Missing("only root can install into a scratch root and be other users")


def ran(*command: Any, **more: Any) -> subprocess.CompletedProcess[str]:
    """A command that has ended, and what it said."""
    streams: dict[str, Any] = {"stdin": subprocess.DEVNULL, "stdout": subprocess.PIPE, "stderr": subprocess.STDOUT}
    words, began = [str(word) for word in command], time.monotonic()
    try:
        return subprocess.run(words, **{**streams, **more}, text=True, timeout=SECONDS)
    finally:
        TOOK.append((time.monotonic() - began, shown(words)))


def shown(words: list[str]) -> str:
    """A command in short: what runs in a machine of its own, by itself."""
    words = words[words.index("--wd") + 1 :] if words[0] == "nsenter" else words
    return " ".join([os.path.basename(words[0]), *(os.path.basename(word) for word in words[1:4])])


def slowest() -> str:
    """The commands that took longest."""
    return ", ".join(f"{seconds:.1f} s {command}" for seconds, command in sorted(TOOK, reverse=True)[:MOST_SHOWN])

"""A change with its configurations in a folder, and the runs of it there."""
import pathlib
from collections.abc import Sequence
from typing import Any

from gate.configs import configuration
from gate.refusing import Refuser, Repeats, Start
from rehearsing.followed import PID_FILE, Change, Group

SECONDS = 60


def configured(groups: Sequence[Group], retries: int) -> str:
    """The configuration of these groups; one group is no table."""
    tables = [{"listeners": list(group.addresses), "workers": group.workers} for group in groups]
    served: dict[str, Any] = {"groups": tables} if len(tables) > 1 else tables[0]
    return configuration(**served, retries=retries, pid=PID_FILE)


def lay_out(change: Change, folder: pathlib.Path) -> None:
    (folder / "a.toml").write_text(configured(change.old, change.retries))
    (folder / f"{change.word}.toml").write_text(configured(change.new, change.retries))


def repeats_of(program: str, refuser: Refuser, change: Change, folder: str | pathlib.Path) -> Repeats:
    """Runs of a change that is laid out, each a copy of one process from its beginning: that takes less time than a
    start."""
    command = [program, "enact", "--from", "a.toml", "--to", f"{change.word}.toml", "--state", change.word]
    return Repeats(refuser, Start(command, b"", str(folder), SECONDS))

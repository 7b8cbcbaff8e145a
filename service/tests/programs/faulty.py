#!/usr/bin/env python3
"""prefork-serve, in which a call raises: the one whose name the file FAULTS/raise has. That file is removed first, so that
it raises once; with FAULTS/always it raises until the test removes FAULTS/raise.

With MARGIN a master that hangs is killed that number of seconds after its limits, and with READING that is how long a
configuration may take to be read.

It notes each handler of events that it registers in FAULTS/handlers, a line for each.
"""
import functools
import os
import pathlib
import selectors
import sys
from typing import Any

sys.dont_write_bytecode = True
sys.path.insert(0, str(pathlib.Path(__file__).resolve().parent.parent.parent))

from prefork_service import (  # noqa: E402
    asking, chronicle, commands, core, door, feed, keeping, leaving, limits, master, patience, preloading, reading, records, refusing,
    serve, service, stopping, summary, telling, ticks, watching, words,
)

PLACE = pathlib.Path(os.environ["FAULTS"])
CLASSES = [
    asking.Asking, chronicle.Chronicle, commands.Commands, door.Door, feed.Feed, keeping.KeeperProcess, leaving.Leaving, master.Master,
    patience.Hanging, preloading.KeptPreloader, preloading.Preloading, reading.ReaderProcess, records.Records, service.Service,
    stopping.Stopping, summary.Summary, telling.Telling, ticks.Ticks, watching.Watching, words.Queue,
]


def wrap(owner: type, name: str) -> None:
    original = getattr(owner, name)
    own_name = f"{owner.__module__.rpartition('.')[2]}.{owner.__name__}.{name}"

    @functools.wraps(original)
    def call(*given: Any, **named: Any) -> Any:
        file = PLACE / "raise"
        if file.exists() and file.read_text() == own_name:
            if not (PLACE / "always").exists():
                file.unlink()
            raise RuntimeError(f"injected in {own_name}")
        return original(*given, **named)

    call.own_name = own_name  # type: ignore[attr-defined]
    setattr(owner, name, call)


def note(register: Any) -> Any:
    @functools.wraps(register)
    def call(events: Any, source: Any, kind: int, data: Any = None) -> Any:
        with open(PLACE / "handlers", "a") as file:
            file.write(f"{getattr(data, 'own_name', repr(data))}\n")
        return register(events, source, kind, data)

    return call


def blind(select: Any) -> Any:
    @functools.wraps(select)
    def call(*given: Any) -> Any:
        file = PLACE / "raise"
        if file.exists() and file.read_text() == "select":
            raise OSError("injected in select")
        return select(*given)

    return call


if __name__ == "__main__":
    patience.MARGIN = float(os.environ.get("MARGIN", patience.MARGIN))
    # (a busy machine may start the program of a master slowly)
    limits.ASKING_SECONDS = refusing.REFUSAL_SECONDS = 120.0
    reading.READING_SECONDS = float(os.environ.get("READING", 120))
    setattr(selectors.DefaultSelector, "select", blind(selectors.DefaultSelector.select))
    for one in CLASSES:
        for name, value in list(vars(one).items()):
            if callable(value) and not name.startswith("__"):
                wrap(one, name)
    for way in ("register", "modify"):
        setattr(selectors.DefaultSelector, way, note(getattr(selectors.DefaultSelector, way)))
    sys.exit(core.main(int(sys.argv[2])) if sys.argv[1:2] == ["--core"] else serve.main())

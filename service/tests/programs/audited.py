#!/usr/bin/env python3
"""prefork-serve, whose core notes in the file AUDIT what it does: the files that it opens and removes, the sockets that it binds,
and the processes that it starts, a line for each; and at its end the modules that it has imported, and what is in their files."""
import atexit
import os
import pathlib
import sys

sys.dont_write_bytecode = True
sys.path.insert(0, str(pathlib.Path(__file__).resolve().parent.parent.parent))

FILE = os.environ["AUDIT"]
HEARD = {"open": 0, "os.remove": 0, "os.rename": 1, "os.mkdir": 0, "os.rmdir": 0, "socket.bind": 1, "socket.connect": 1, "subprocess.Popen": 1}
# How a program of ours in Python is started.
BY_PYTHON = [sys.executable, "-S"]
is_noting = False


def note(event: str, given: tuple) -> None:
    global is_noting
    if is_noting or event not in HEARD:
        return
    is_noting = True
    what = given[HEARD[event]]
    words = what if isinstance(what, list) else [what]
    words = words[2:] if words[:2] == BY_PYTHON else words
    told = " ".join(os.fsdecode(word) if isinstance(word, (str, bytes, os.PathLike)) else repr(word) for word in words[:1])
    with open(FILE, "a") as file:
        file.write(f"{event} {told}\n")
    is_noting = False


def end() -> None:
    global is_noting
    is_noting = True
    with open(FILE, "a") as file:
        for name, module in sorted(sys.modules.items()):
            file.write(f"module {name} {getattr(module, '__file__', None) or '-'}\n")


if sys.argv[1:2] == ["--core"]:
    sys.addaudithook(note)
    atexit.register(end)
    from prefork_service.lean import put_off

    put_off()
    from prefork_service import core

    sys.exit(core.main(int(sys.argv[2])))

from prefork_service import serve

sys.exit(serve.main())

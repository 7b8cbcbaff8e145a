#!/usr/bin/env python3
"""library/tests/edges.py: texts at the edges of what the shim holds: words without an end, empty and large texts, names that
begin or continue another's, folders. Prints what is wrong and then 'N passed, M failed'. Its use is a library that
library/build --sanitize made."""
import pathlib
import sys
from collections.abc import Iterator

sys.dont_write_bytecode = True
ROOT = pathlib.Path(__file__).resolve().parent.parent.parent
sys.path[:0] = [str(ROOT / "ci"), str(ROOT / "library")]

import prefork
from gate.tally import Tally

A = "workers = 2\n"
LARGE = 65_536


def raw(*texts: bytes) -> tuple[int, str, str]:
    """A run over texts as they are."""
    for which, text in enumerate(texts):
        prefork.LIBRARY.prefork_give(which, text, len(text))
    told = (prefork.LIBRARY.prefork_run(), prefork.written(0), prefork.written(1))
    prefork.LIBRARY.prefork_forget()
    return told


def certified(*goals: str) -> int:
    """The status of `certify` of two reloads, of 2 workers to 3 and to 1, whose configurations are said to be these."""
    blocks = prefork.enact(A, "workers = 3\n", "HUP").output
    reload = ["fork 1.3 0 : forked", "await-ready 1.3 0 : ready", "census 1.3 : counted 0"]
    reload += [*(f"quit 1.2 {number} : ok" for number in (2, 1, 0)), "census 1.3 : counted 0"]
    calls = "".join(f"{number} m1 {call}\n" for number, call in enumerate(reload, 1))
    text = f"{blocks}word HUP\n{calls}done cause none pid no-file\n"
    return prefork.certify(A, goals[0], text, *goals[1:]).status


def checks() -> Iterator[tuple[str, bool]]:
    usage = (2, "", "prefork: usage\n")
    yield "no word", raw(b"")[0] == 2
    yield "the name alone", raw(b"prefork\0")[0] == usage[0]
    yield "a last word without its end", raw(b"prefork\0--version")[1].startswith("prefork ")
    yield "an empty word", raw(b"prefork\0\0") == usage
    yield "a long word", raw(b"prefork\0" + b"x" * LARGE + b"\0") == usage
    yield "many words", raw(b"prefork\0enact\0" + b"TTIN\0" * 2_000)[1].count("word TTIN\n") == 2_000
    for which in (-1, 2 + 2 * prefork.MOST_FILES):
        yield f"text {which} is ignored", prefork.LIBRARY.prefork_give(which, b"x", 1) is None and prefork.version() != ""
    yield "what was given is forgotten", raw(b"prefork\0check\0a\0", b"", b"a", b"workers = 2\n")[0] == 0 and raw(b"prefork\0check\0a\0")[0] == 1
    yield "a missing file", prefork.answer("check", "a").errors == "" and prefork.answer("check", "a").status == 1
    for name in ("a.tom", "a.tomlx", "", "A.toml"):
        yield f"{name!r} is another file", prefork.answer("check", name, files=[("a.toml", A)]).status == 1
    for name in (".", "..", "/"):
        yield f"{name} is a folder", prefork.answer("check", name, files=[("a.toml", A)]).status == 1
    yield "an empty configuration", prefork.check("").status == 0
    yield "a large configuration", prefork.check("# " + "x" * LARGE + "\nworkers = 1\n").status in (0, 1)
    yield "an input of 65,536 bytes", prefork.enact(A, None, "TTIN", pattern="next\n" * (LARGE // 5)).status == 0
    yield "an input that is no pattern", prefork.enact(A, None, "TTIN", pattern="x" * LARGE).errors == "prefork: pattern X1 1\n"
    yield "a large answer", len(prefork.enact("workers = 1000\n", "workers = 1000\n", "HUP", state=True).output) > LARGE
    yield "a small answer after it", prefork.version().startswith("prefork ")
    yield "both files", prefork.enact(A, "workers = 3\n", "HUP").status == 0
    most = [(f"{number}.toml", f"workers = {number + 1}\n") for number in range(prefork.MOST_FILES)]
    yield "as many files as there may be", prefork.answer("check", most[-1][0], files=most).status == 0
    yield "three configurations", certified("workers = 3\n", "workers = 1\n") == 0
    yield "another third one", certified("workers = 3\n", "workers = 4\n") == 5
    yield "the same file twice", prefork.answer("enact", "--from", "a", "--to", "a", "HUP", files=[("a", A)]).status == 0


def main() -> int:
    tally = Tally()
    for what, holds in checks():
        tally.check([] if holds else [f"{what}: not so"])
    return tally.end()


if __name__ == "__main__":
    sys.exit(main())

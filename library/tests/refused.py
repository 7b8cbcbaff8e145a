#!/usr/bin/env python3
"""library/tests/refused.py [--all]

Refuses each growth of memory of ten calls in turn, or with fewer than --all each of some hundreds. The answer must be
`prefork: memory` with status 1 and a first part of the whole output, or the whole answer. Prints what differs and then
'N passed, M failed'.
"""
import pathlib
import sys
from collections.abc import Callable, Iterator

sys.dont_write_bytecode = True
ROOT = pathlib.Path(__file__).resolve().parent.parent.parent
sys.path[:0] = [str(ROOT / "ci"), str(ROOT / "library")]

import prefork
from gate.tally import Tally

A = 'workers = 2\npid = "/run/a.pid"\n'
B = 'listeners = ["0.0.0.0:8080", "0.0.0.0:9090"]\nworkers = 2\npid = "/run/a.pid"\n'
# The growths of a call that are tried without --all.
SOME = 40
REFUSED = (1, "prefork: memory\n")


def calls() -> dict[str, Callable[[], prefork.Told]]:
    blocks = prefork.enact(A, B, "HUP").output
    return {
        "enact": lambda: prefork.enact(A, B, "HUP", pattern="5 fail late\n", state=True),
        "enact two words": lambda: prefork.enact(A, B, "USR2", "TTIN"),
        "enact --json": lambda: prefork.enact(A, B, "HUP", json=True),
        "plan": lambda: prefork.plan(A, B, "HUP"),
        "plan --dot": lambda: prefork.plan(A, B, "USR2", dot=True),
        "explore": lambda: prefork.explore(A, B, "HUP"),
        "certify": lambda: prefork.certify(A, B, blocks),
        "check": lambda: prefork.check(A),
        "check of a fault": lambda: prefork.check("workers = 2000\n"),
        "explain": lambda: prefork.explain("C4"),
    }


def refused(call: Callable[[], prefork.Told], count: int) -> prefork.Told:
    """A call of which all growths after this number are refused."""
    prefork.LIBRARY.prefork_refuse_after(count)
    try:
        return call()
    finally:
        prefork.LIBRARY.prefork_refuse_after(-1)


def faults(name: str, call: Callable[[], prefork.Told], is_whole: bool) -> Iterator[list[str]]:
    prefork.LIBRARY.prefork_refuse_after(-1)
    whole = call()
    growths = prefork.LIBRARY.prefork_growths()
    step = 1 if is_whole else max(1, growths // SOME)
    for count in range(0, growths, step):
        told = refused(call, count)
        is_refused = (told.status, told.errors) == REFUSED and whole.output.startswith(told.output)
        yield [] if is_refused or told == whole else [f"{name}, growth {count + 1}: {told!r:.300}"]
    yield [] if growths and refused(call, 0).status == 1 else [f"{name}: no growth of memory was refused"]
    yield [] if call() == whole else [f"{name}: another answer after refusals"]


def main() -> int:
    tally = Tally()
    for name, call in calls().items():
        for found in faults(name, call, "--all" in sys.argv):
            tally.check(found)
    return tally.end()


if __name__ == "__main__":
    sys.exit(main())

#!/usr/bin/env python3
"""library/tests/threads.py: the same calls in four threads at once, each with texts of its own, answered as in one. Prints
what differs and then 'N passed, M failed'."""
import concurrent.futures
import pathlib
import sys

sys.dont_write_bytecode = True
ROOT = pathlib.Path(__file__).resolve().parent.parent.parent
sys.path[:0] = [str(ROOT / "ci"), str(ROOT / "library")]

import prefork
from gate.tally import Tally

THREADS, CALLS = 4, 160
B = 'listeners = ["0.0.0.0:8080", "0.0.0.0:9090"]\nworkers = 30\n'


def ask(number: int) -> prefork.Told:
    """A call that differs from its neighbours in its files, its pattern and the length of its answer."""
    return prefork.enact(f"workers = {number % 40}\n", B, "HUP", pattern=f"{number % 7 + 1} fail again\n", state=number % 2 == 0)


def main() -> int:
    wanted = [ask(number) for number in range(CALLS)]
    tally = Tally()
    with concurrent.futures.ThreadPoolExecutor(THREADS) as pool:
        for number, told in enumerate(pool.map(ask, range(CALLS))):
            tally.check([] if told == wanted[number] else [f"call {number}: {told!r:.300}"])
    return tally.end()


if __name__ == "__main__":
    sys.exit(main())

"""python3 tests/reader [--seed S] [--runs N] [--lives | --deaths | --plans] [--stop] PROGRAM

Carries words out by this port of the definitions and by a program, from random starts, and prints what differs. With
--lives it looks at whole lives, with deaths of masters, and --runs is how many; with --deaths, at words whose masters die
at each call. The last line has the counts as JSON.
With --stop it ends at the first difference. With --plans it runs plans that nobody wants, by this port alone, each in
at most --runs accepted runs, until the claim that is to refuse it is false of one, and prints what was found.
"""
import argparse
import json
import pathlib
import random
import sys
import tempfile
from collections import Counter

sys.dont_write_bytecode = True
sys.path.insert(0, str(pathlib.Path(__file__).resolve().parent.parent))

from reader.dying import Dying
from reader.living import Living
from reader.trial import Trial
from reader.wrong_plans import WRONG_PLANS, look_for

Kind = type[Trial] | type[Living] | type[Dying]
MOST_TOLD = 5


def compare(what: Kind, program: str, seed: str, runs: int, stops: bool) -> Counter[str]:
    """Compares until this number of runs, or of lives, was carried out."""
    dice, counts = random.Random(seed), Counter({"runs": 0, "differing": 0})
    with tempfile.TemporaryDirectory() as room:
        while counts["runs"] < runs and not (stops and counts["differing"]):
            trial = what(dice)
            faults = trial.faults(program, pathlib.Path(room))
            counts += trial.counts()
            counts["differing"] += bool(faults)
            if faults and counts["differing"] <= MOST_TOLD:
                print(f"{'; '.join(faults)}\n  {trial.told()}", flush=True)
    return counts


def look_for_all(seed: str, runs: int) -> int:
    """Looks for a run of each wrong plan of which its claim is false."""
    found = {name: look_for(name, random.Random(seed), runs) for name in WRONG_PLANS}
    print(json.dumps({name: one._asdict() for name, one in found.items()}))
    return int(not all(one.is_found for one in found.values()))


def main() -> int:
    parser = argparse.ArgumentParser(prog="tests/reader", description="Carries words out by the definitions.")
    parser.add_argument("--seed", default="1")
    parser.add_argument("--runs", type=int, default=1000)
    parser.add_argument("--lives", action="store_true")
    parser.add_argument("--deaths", action="store_true")
    parser.add_argument("--plans", action="store_true")
    parser.add_argument("--stop", action="store_true")
    parser.add_argument("program")
    given = parser.parse_args()
    if given.plans:
        return look_for_all(given.seed, given.runs)
    what: Kind = Living if given.lives else Dying if given.deaths else Trial
    counts = compare(what, str(pathlib.Path(given.program).resolve()), given.seed, given.runs, given.stop)
    print(json.dumps(counts))
    return int(counts["differing"] > 0)


if __name__ == "__main__":
    sys.exit(main())

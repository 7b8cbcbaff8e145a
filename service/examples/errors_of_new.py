#!/usr/bin/env python3
"""errors_of_new.py [--most PERCENT] [--least N] [--seconds SECONDS] [--prefork-ctl PROGRAM]

Answers the question of an upgrade that asks, by what the new workers of --wsgi have answered to users: for SECONDS (30) it
counts their answers, and it ends with 0 if there were at least N (100), and at most PERCENT (1) of them had a status of 500 or
more. It ends with 1 at once when more than PERCENT of the answers so far, or of N if these are fewer, have failed.

    prefork-ctl --ask "examples/errors_of_new.py --seconds 60" --ask-within 90 "USR2 attended"

The numbers are those of `prefork_generation_requests_total`, which `prefork-ctl --json status` has too. At question 2 only what
is answered from then on counts.
"""
import argparse
import json
import os
import subprocess
import sys
import time

PAUSE = 1.0


def arguments() -> argparse.Namespace:
    parser = argparse.ArgumentParser(prog="errors_of_new.py", description="Counts the errors of new workers.")
    parser.add_argument("--most", type=float, default=1.0, metavar="PERCENT", help="how many answers may fail (1)")
    parser.add_argument("--least", type=int, default=100, metavar="N", help="how many answers there have to be (100)")
    parser.add_argument("--seconds", type=float, default=30.0, help="for how long they are counted (30)")
    told = "the program that tells the status (prefork-ctl)"
    parser.add_argument("--prefork-ctl", default="prefork-ctl", metavar="PROGRAM", help=told)
    return parser.parse_args()


def counted(program: str) -> tuple[int, int]:
    """How many requests the new generation has answered, and how many of them with 500 or more."""
    command = [program, "--folder", os.environ["PREFORK_FOLDER"], "--json", "status"]
    status = json.loads(subprocess.run(command, capture_output=True, text=True, check=True).stdout)
    classes = (status.get("requests") or {}).get("generations", {}).get(os.environ["PREFORK_NEW_GENERATION"], {})
    return sum(classes.values()), classes.get("5xx", 0)


def main() -> int:
    given = arguments()
    until, before = time.monotonic() + given.seconds, counted(given.prefork_ctl)
    # At question 1 all that the new generation has answered counts.
    before = before if os.environ["PREFORK_QUESTION"] == "2" else (0, 0)
    while True:
        is_over = time.monotonic() >= until
        answers, failed = (now - then for now, then in zip(counted(given.prefork_ctl), before))
        told = f"{failed} of {answers} answers of generation {os.environ['PREFORK_NEW_GENERATION']} have failed"
        is_bad = 100 * failed > given.most * max(answers, given.least)
        if is_bad or is_over:
            break
        time.sleep(PAUSE)
    is_few = answers < given.least
    print(f"{told}{f': at least {given.least} answers are wanted' if is_few and not is_bad else ''}")
    return int(is_bad or is_few)


if __name__ == "__main__":
    sys.exit(main())

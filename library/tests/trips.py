#!/usr/bin/env python3
"""library/tests/trips.py [SEED [TRIPS]]: the round trips and altered transcripts of ci/roundtrips, in this process: `enact`
writes blocks under random patterns, `certify` explains them, and `enact` under that writes them again; what was altered is
refused by name, or is the transcript of another run. 2,000 of each, in seconds. Prints the seed, what is wrong, and last
'N passed, M failed'."""
import importlib.machinery
import importlib.util
import os
import pathlib
import subprocess
import sys
import tempfile

sys.dont_write_bytecode = True
ROOT = pathlib.Path(__file__).resolve().parent.parent.parent
sys.path[:0] = [str(ROOT / "ci"), str(ROOT / "library")]

import prefork

TRIPS = 2_000
loader = importlib.machinery.SourceFileLoader("roundtrips", str(ROOT / "ci" / "roundtrips"))
spec = importlib.util.spec_from_loader("roundtrips", loader)
assert spec
roundtrips = importlib.util.module_from_spec(spec)
loader.exec_module(roundtrips)


class Trip(roundtrips.Trip):
    """A round trip whose answers are the library's."""

    def run(self, command: str, words: list[str], given: str) -> subprocess.CompletedProcess:
        case = self.case
        files = [(name, (case.folder / name).read_bytes()) for name in ("a.toml", "b.toml")]
        told = prefork.answer(command, *case.options, *case.held, *words, files=files, input=given)
        return subprocess.CompletedProcess([command], told.status, told.output.encode(), told.errors.encode())


def main() -> int:
    seed = sys.argv[1] if len(sys.argv) > 1 else str(int.from_bytes(os.urandom(4), "big"))
    roundtrips.Trip = Trip
    print(f"seed {seed}")
    # (the files of a case are written once for each: in memory, where there is such a folder)
    tempfile.tempdir = "/dev/shm" if os.access("/dev/shm", os.W_OK) else None
    _, tally = roundtrips.part("", seed, int(sys.argv[2]) if len(sys.argv) > 2 else TRIPS)
    return tally.end()


if __name__ == "__main__":
    sys.exit(main())

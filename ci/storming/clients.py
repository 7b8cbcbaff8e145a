"""The load of a storm: prefork-load, whose failures are all told, each with the moments between which it was."""
import pathlib
import sys
import time
from typing import Any

sys.dont_write_bytecode = True
sys.path.insert(0, str(pathlib.Path(__file__).resolve().parent.parent.parent / "service"))

from prefork_service import load


class FullTally(load.Tally):
    """Tells each failure."""

    def failed(self, began: float, keeps: bool, fault: Exception) -> None:
        super().failed(began, keeps, fault)
        with self.lock:
            self.failures[-1]["ended"] = time.monotonic()

    def summary(self) -> dict[str, Any]:
        return {**super().summary(), "failures": self.failures}


if __name__ == "__main__":
    setattr(load, "Tally", FullTally)
    sys.exit(load.main())

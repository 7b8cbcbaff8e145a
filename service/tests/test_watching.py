"""Which of the workers that were counted run."""
import pathlib
import subprocess
import tempfile
import types
import unittest
from typing import Any

from kit import until
from prefork_service.counted import started_workers
from prefork_service.watching import Watching

COUNTED = "word tick {}\n1 m1 census 1.1 : counted 0-1\ndone cause none pid no-file\n"


class WatchingTest(unittest.TestCase):
    def setUp(self) -> None:
        room = tempfile.TemporaryDirectory()
        self.addCleanup(room.cleanup)
        self.workers = pathlib.Path(room.name) / "workers"
        self.workers.mkdir()
        folder: Any = types.SimpleNamespace(path=pathlib.Path(room.name), workers=self.workers)
        self.watching = Watching(folder)
        self.processes = [self.start(number) for number in range(2)]
        self.count(1)

    def start(self, number: int) -> subprocess.Popen:
        process = subprocess.Popen(["sleep", "1000"])
        self.addCleanup(process.wait)
        self.addCleanup(process.kill)
        (self.workers / f"1.1.{number}").write_text(f"{process.pid}\n")
        return process

    def count(self, moment: int) -> None:
        """A block that counts both of them."""
        self.watching.begin(f"tick {moment}")
        self.watching.end(f"tick {moment}", COUNTED.format(moment), {})

    def seen(self) -> tuple[str, int]:
        self.watching.look(True)
        whole = self.watching.whole(None)
        return whole.state, whole.running

    def test_one_that_is_started_in_place_of_another_runs_once_it_was_counted(self) -> None:
        """It may take long until it is ready, or fail."""
        self.assertEqual(self.seen(), ("serves", 2))
        self.processes[0].kill()
        self.processes[0].wait()
        self.assertEqual(self.seen(), ("short", 1))
        self.start(0)
        self.assertTrue(until(lambda: len(started_workers(self.workers)) == 2))
        self.assertEqual(self.seen(), ("short", 1))
        self.assertTrue(self.watching.wants_tick(0.0))
        self.assertEqual(self.watching.why(), "1 of 2 workers ended")
        self.count(2)
        self.assertEqual(self.seen(), ("serves", 2))

    def test_those_of_a_master_that_has_died_are_forgotten(self) -> None:
        self.processes[0].kill()
        self.processes[0].wait()
        self.seen()
        self.watching.begin_master(2, 60)
        self.start(0)
        self.count(3)
        self.assertEqual(self.seen(), ("serves", 2))


if __name__ == "__main__":
    unittest.main()

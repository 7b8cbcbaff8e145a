"""Workers that are to end, and those that do not."""
import os
import pathlib
import subprocess
import tempfile
import unittest

from kit import until
from prefork_service import leaving
from prefork_service.leaving import Leaving

BLOCK = "word HUP\n1 m1 fork 1.2 0 : forked\n2 m1 quit 1.1 1 : ok\n3 m1 quit 1.1 0 : ok\ndone cause none pid no-file\n"


class LeavingTest(unittest.TestCase):
    def setUp(self) -> None:
        room = tempfile.TemporaryDirectory()
        self.addCleanup(room.cleanup)
        self.folder = pathlib.Path(room.name)
        (self.folder / "workers").mkdir()

    def started(self, name: str, *command: str, **how: object) -> subprocess.Popen:
        """A worker of this name."""
        process = subprocess.Popen(command or ["sleep", "1000"], stdout=subprocess.DEVNULL, **how)
        self.addCleanup(process.wait)
        self.addCleanup(process.kill)
        (self.folder / "workers" / name).write_text(f"{process.pid}\n")
        return process

    def late(self, watched: Leaving) -> list[str]:
        """Whom it kills at its next look."""
        watched.next_look = 0.0
        return watched.tend()

    def test_those_that_were_told_to_quit_are_killed_in_time(self) -> None:
        workers = [self.started(name) for name in ("1.1.0", "1.1.1", "1.1.2", "1.2.0")]
        watched = Leaving(self.folder, 1000)
        watched.note(BLOCK)
        self.assertEqual(self.late(watched), [])
        watched.due = {worker: (name, 0.0) for worker, (name, _) in watched.due.items()}
        self.assertEqual(sorted(self.late(watched)), ["1.1.0", "1.1.1"])
        self.assertTrue(until(lambda: [worker.poll() for worker in workers] == [-9, -9, None, None]))
        self.assertEqual(self.late(watched), [])

    def test_those_that_end_by_themselves_are_forgotten(self) -> None:
        worker = self.started("1.1.0", "sleep", "0")
        watched = Leaving(self.folder, 0.001)
        watched.note(BLOCK)
        self.assertTrue(until(lambda: not leaving.start_of(worker.pid)))
        self.assertEqual((self.late(watched), watched.due), ([], {}))

    def test_those_of_a_new_master_that_was_ended(self) -> None:
        for name in ("1.1.0", "2.2.0", "22.2.0"):
            self.started(name)
        upgrade = "word USR2\n1 m1 spawn-master 2 : spawned\n2 m2 adopt : adopted\n{} cause 2 pid no-file\n"
        for report, wanted in (("done", set()), ("degraded target 1", set()), ("rolled-back", {"2.2.0"}), ("degraded old 1", {"2.2.0"})):
            watched = Leaving(self.folder, 1000)
            watched.note(upgrade.format(report))
            self.assertEqual({name for name, _ in watched.due.values()}, wanted, report)

    def test_without_a_limit_nobody_is_killed(self) -> None:
        self.started("1.1.0")
        watched = Leaving(self.folder, 0)
        watched.note(BLOCK)
        watched.take_all()
        self.assertEqual(watched.due, {})

    def test_a_number_that_another_process_has_by_then(self) -> None:
        worker = self.started("1.1.0")
        watched = Leaving(self.folder, 1000)
        self.assertFalse(watched.kill(worker.pid, "1"))
        self.assertIsNone(worker.poll())
        (self.folder / "workers" / "1.1.0").write_text("1\n")
        watched.note(BLOCK)
        self.assertEqual(watched.due, {})

    def test_a_worker_of_a_dead_master_is_known_by_its_environment(self) -> None:
        shell = "sleep 1000 & echo $! >$PREFORK_FOLDER/workers/1.1.0"
        subprocess.run(["sh", "-c", shell], env=os.environ | {"PREFORK_FOLDER": str(self.folder)}, check=True)
        worker = int((self.folder / "workers" / "1.1.0").read_text())
        # (the environment of a process that is just becoming another program can't be read)
        self.assertTrue(until(lambda: pathlib.Path(f"/proc/{worker}/comm").read_text() == "sleep\n"))
        other = self.started("1.1.1", env={"PREFORK_FOLDER": "/elsewhere"})
        watched = Leaving(self.folder, 1000)
        watched.take_all()
        self.assertEqual({process for process, _ in watched.due}, {worker, other.pid})
        watched.due = {process: (name, 0.0) for process, (name, _) in watched.due.items()}
        self.assertEqual(sorted(self.late(watched)), ["1.1.0", "1.1.1"])
        self.assertTrue(until(lambda: not leaving.start_of(worker)))


if __name__ == "__main__":
    unittest.main()

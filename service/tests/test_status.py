"""What a status says."""
import errno
import os
import pathlib
import subprocess
import tempfile
import time
import unittest
from unittest import mock

from kit import PYTHON, until
from prefork_service.ages import age_of
from prefork_service.counted import Record, forget, started_workers
from prefork_service.processes import descends, masters_of
from prefork_service.status import Moment, others_of, shown, workers_of

BLOCK = "word HUP\n1 m1 census 1.1 : counted 0-2\n2 m1 census 1.2 : counted 0-1,3\ndone cause none pid no-file\n"


class RecordTest(unittest.TestCase):
    def test_the_last_census(self) -> None:
        record = Record()
        record.note(BLOCK)
        record.note("word tick 5\n1 m1 census 1.2 : counted 0-1\ndone cause none pid no-file\n")
        self.assertEqual((record.generation, record.workers), ("1.2", [0, 1]))
        record.note("word USR2\nrefused W5\n")
        self.assertEqual((record.generation, record.workers), ("1.2", [0, 1]))
        record.forget_workers()
        self.assertEqual((record.generation, record.workers), ("", []))


class ProcessesTest(unittest.TestCase):
    def started(self, *command: str) -> subprocess.Popen:
        process = subprocess.Popen(command, stdout=subprocess.DEVNULL)
        self.addCleanup(process.wait)
        self.addCleanup(process.kill)
        return process

    def test_only_processes_of_this_service_are_its_workers(self) -> None:
        with tempfile.TemporaryDirectory() as room:
            place, child = pathlib.Path(room), self.started("sleep", "1000")
            ended = subprocess.Popen(["true"])
            ended.wait()
            for name, process in (("1.2.0", child.pid), ("1.1.0", ended.pid), ("1.2.1", 1)):
                (place / name).write_text(f"{process}\n")
            (place / "1.2.2").touch()
            self.assertEqual(started_workers(place), {("1.2", 0): child.pid})
            self.assertEqual(sorted(file.name for file in place.iterdir()), ["1.2.0", "1.2.2"])

    def test_whose_process_it_is(self) -> None:
        shell = self.started("sleep", "1000")
        self.assertTrue(descends(shell.pid, os.getpid()))
        self.assertFalse(descends(os.getppid(), os.getpid()))
        self.assertFalse(descends(2**22 + 1, os.getpid()))
        known = set[int]()
        self.assertFalse(descends(os.getppid(), os.getpid(), known))
        self.assertTrue(descends(shell.pid, os.getpid(), known))
        self.assertEqual(known, {shell.pid})

    def test_the_age_of_a_process(self) -> None:
        process = self.started("sleep", "1000")
        time.sleep(2.1)
        self.assertIn(int(age_of(process.pid)), range(1, 60))

    def test_the_masters_of_upgrades(self) -> None:
        code = "import subprocess, sys; subprocess.run([sys.executable, 'adopt']) if sys.argv[1:] else None"
        with tempfile.TemporaryDirectory() as room:
            (pathlib.Path(room) / "adopt").write_text("import time; time.sleep(1000)\n")
            first = subprocess.Popen([PYTHON, "-c", code, "x"], cwd=room)
            self.addCleanup(first.wait)
            self.assertTrue(until(lambda: len(masters_of(first.pid)) == 2))
            found = masters_of(first.pid)
            os.kill(found[1], 9)
        self.assertEqual(found[0], first.pid)

    def test_workers_that_have_ended_and_beats_of_others(self) -> None:
        record, process = Record(), self.started("sleep", "1000")
        record.note(BLOCK)
        now = int(time.monotonic())
        found = workers_of(record, {("1.2", 0): process.pid, ("1.1", 1): process.pid}, {0: now - 1000, 1: now})
        self.assertEqual([worker["number"] for worker in found], [0, 1, 3])
        self.assertEqual([worker["process"] for worker in found], [process.pid, None, None])
        self.assertIsNone(found[0]["last_beat_seconds"])

    def test_a_beat_of_the_second_in_which_a_worker_started(self) -> None:
        # (the system tells the start of a process by hundredths of a second)
        while not 0.1 < time.monotonic() % 1 < 0.5:
            time.sleep(0.05)
        record, before, process = Record(), int(time.monotonic()), self.started("sleep", "1000")
        record.note(BLOCK)
        found = workers_of(record, {("1.2", 0): process.pid}, {0: before})
        self.assertIsNone(found[0]["last_beat_seconds"])
        moment = int(time.monotonic()) + 1
        found = workers_of(record, {("1.2", 0): process.pid}, {0: moment})
        self.assertIn(found[0]["last_beat_seconds"], range(max(0, int(time.monotonic()) - moment) + 1))


class FilesTest(unittest.TestCase):
    """The files of workers, of which one that is started in the place of another has the same name."""

    def setUp(self) -> None:
        folder = tempfile.TemporaryDirectory()
        self.addCleanup(folder.cleanup)
        self.place = pathlib.Path(folder.name)
        self.file = self.place / "1.2.0"
        ended = subprocess.Popen(["true"])
        ended.wait()
        self.ended = f"{ended.pid}\n"

    def test_that_of_a_worker_of_which_the_system_cannot_be_asked_stays(self) -> None:
        """Where descriptors have run out for a moment, say."""
        running, read = subprocess.Popen(["sleep", "60"]), pathlib.Path.read_text
        self.addCleanup(running.wait)
        self.addCleanup(running.kill)
        self.file.write_text(f"{running.pid}\n")

        def read_text(path: pathlib.Path, *given: str) -> str:
            if str(path).startswith("/proc/"):
                raise OSError(errno.EMFILE, "Too many open files")
            return read(path, *given)

        with mock.patch.object(pathlib.Path, "read_text", read_text):
            self.assertEqual(started_workers(self.place), {("1.2", 0): running.pid})
        self.assertEqual(started_workers(self.place), {("1.2", 0): running.pid})

    def test_that_of_a_worker_that_has_ended_is_removed(self) -> None:
        self.file.write_text(self.ended)
        self.assertEqual(started_workers(self.place), {})
        self.assertEqual(list(self.place.iterdir()), [])

    def test_what_no_worker_has_written_is_none(self) -> None:
        (self.place / "1.2.1").mkdir()
        (self.place / "1.2.2").write_bytes(b"\xff\xfe\0")
        (self.place / "notes").write_text("of somebody")
        self.assertEqual(started_workers(self.place), {})
        self.assertEqual(sorted(file.name for file in self.place.iterdir()), ["1.2.1", "1.2.2", "notes"])
        for place in ("missing", "notes"):
            self.assertEqual(started_workers(self.place / place), {})

    def test_that_of_the_next_worker_stays(self) -> None:
        """It is written after the file was read, and before it is removed."""
        running = subprocess.Popen(["sleep", "60"])
        self.addCleanup(running.wait)
        self.addCleanup(running.kill)

        def written_meanwhile(process: int, ancestor: int, known: set[int]) -> bool:
            self.file.write_text(f"{running.pid}\n")
            return False

        self.file.write_text(self.ended)
        with mock.patch("prefork_service.counted.descends", written_meanwhile):
            self.assertEqual(started_workers(self.place), {})
        self.assertEqual(started_workers(self.place), {("1.2", 0): running.pid})

    def test_that_of_a_worker_that_is_being_written_stays(self) -> None:
        """Its file is empty for a moment."""
        self.file.write_text("")
        forget(self.file, self.ended)
        self.assertEqual([file.name for file in self.place.iterdir()], ["1.2.0"])


class WantedTest(unittest.TestCase):
    def test_how_many_workers_are_wanted(self) -> None:
        record = Record()
        record.wanted = 9
        for word, census, report, wanted in (
            ("HUP", "counted 0-3", "done cause none pid no-file", 4), ("tick 7", "counted 0-1", "degraded target 2 cause 1 pid no-file", 4),
            ("TTIN", "counted 0-1", "rolled-back cause 1 pid no-file", 4), ("HUP", "counted 0", "degraded old 1 cause 1 pid no-file", 4),
            ("USR1", "counted 0-1", "done cause none pid no-file", 4), ("tick 8", "counted 0", "degraded target 0,2 cause 1 pid no-file", 3),
            ("WINCH", "counted none", "done cause none pid no-file", 0),
        ):
            record.note(f"word {word}\n1 m1 census 1.1 : {census}\n{report}\n")
            self.assertEqual(record.wanted, wanted, (word, report))
        record.note("word tick 9\nnothing\n")
        self.assertEqual((record.wanted, record.workers), (0, []))

    def states(self, moment: Moment, running: dict[tuple[str, int], int], generation: str = "1.1") -> dict[str, str]:
        record = Record()
        record.generation, record.workers = generation, [0] if generation else []
        return {f"{it['generation']}.{it['number']}": it["state"] for it in others_of(record, running, moment)}

    def test_workers_of_a_version_that_is_tried(self) -> None:
        """They start until they have noted that they are ready; older ones finish, and so do they if it goes back."""
        running = {("1.1", 0): 1, ("1.0", 0): 1, ("1.2", 0): 1, ("1.2", 1): 1}
        ready = frozenset({("1.2", 0)})
        self.assertEqual(self.states(Moment("HUP", False, ready), running), {"1.0.0": "finishes", "1.2.0": "is ready", "1.2.1": "starts"})
        self.assertEqual(set(self.states(Moment("HUP", True, ready), running).values()), {"finishes"})
        # The word has ended: it was rolled back.
        self.assertEqual(set(self.states(Moment(), running).values()), {"finishes"})

    def test_workers_of_the_generation_that_runs(self) -> None:
        running = {("1.1", 0): 1, ("1.1", 1): 1}
        for moment, state in ((Moment("TTIN"), "starts"), (Moment("TTOU"), "finishes"), (Moment(), "finishes"), (Moment(failing=frozenset({1})), "starts")):
            self.assertEqual(self.states(moment, running), {"1.1.1": state}, moment)

    def test_workers_of_a_master_that_has_counted_nobody(self) -> None:
        running = {("1.1", 0): 5, ("1.2", 1): 6}
        self.assertEqual(self.states(Moment(survivors=frozenset({6})), running, ""), {"1.1.0": "starts", "1.2.1": "finishes"})


class ShownTest(unittest.TestCase):
    def test_a_status_in_words(self) -> None:
        worker = {"generation": "2.2", "number": 0, "process": 7, "seconds": 9, "last_beat_seconds": 1}
        status = {
            "service": {"process": 1, "seconds": 60, "folder": "/run/site"}, "addresses": ["127.0.0.1:8080"],
            "generation": "2.2", "workers": [worker, {**worker, "number": 1, "process": None}], "masters": [3, 4],
            "master_restarts": 1, "keeper": {"process": 5, "restarts": 0},
            "last": {"word": "USR2", "report": "done", "at": "2026-01-01T00:00:00+00:00", "reasons": ["2 m1 x: why"]}, "doing": "HUP", "question": 1,
            "waiting": 2, "file_has_changed": True, "question_seconds": 7, "line": "changes: HUP",
            "others": [{"generation": "2.3", "number": 0, "process": 8, "seconds": 1, "state": "is ready"}],
            "of_files": "mend the new one", "failing": [{"worker": 1, "failed": 2, "reason": "it ended", "next_try_seconds": 3.9}],
        }
        said = shown(status)
        for wanted in (
            "worker 0    process 7, for 9 s, beat 1 s ago\n", "worker 1    has ended\n",
            "master      process 4, started again once\n", "files       mend the new one\n", "old master  process 3: an upgrade has left it",
            "last word   USR2 at 2026-01-01T00:00:00+00:00: done\n", "because     2 m1 x: why\n",
            "now         carries out HUP, asks 1: old and new workers serve, for 7 s: type prefork-ctl go, or prefork-ctl back, "
            "2 more wait\n", "file        has changed", "state       changes: HUP\n",
            "worker 2.3.0 process 8, for 1 s, is ready\n", "next try    worker 1 in 4 s: it has failed 2 times, it ended\n",
        ):
            self.assertIn(wanted, said)
        quiet = {**status, "last": None, "doing": None, "question": 0, "waiting": 0, "masters": [], "file_has_changed": False, "of_files": None}
        self.assertNotIn("files  ", shown(quiet))
        self.assertNotIn("removed  ", shown(quiet))
        self.assertIn("removed     /x: nobody can connect until HUP or USR2\n", shown({**quiet, "lost_paths": ["/x"]}))
        for wanted in ("master      none runs", "last word   none\n", "now         waits for words\n"):
            self.assertIn(wanted, shown(quiet))


if __name__ == "__main__":
    unittest.main()

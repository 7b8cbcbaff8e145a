"""The processes of workers, for one who asks again and again."""
import os
import pathlib
import shutil
import subprocess
import tempfile
import time
import unittest
from unittest import mock

from kit import until
from prefork_service import signs, worker_files
from prefork_service.ages import age_since
from prefork_service.handles import Handles
from prefork_service.signs import Unchanged
from prefork_service.worker_files import WorkerFiles


def age(path: pathlib.Path, seconds: float = 10.0) -> None:
    """Lets a file be one that was written some time ago."""
    moment = time.time() - seconds
    os.utime(path, (moment, moment))


class WorkerFilesTest(unittest.TestCase):
    def setUp(self) -> None:
        room = tempfile.TemporaryDirectory()
        self.addCleanup(room.cleanup)
        self.place = pathlib.Path(room.name) / "workers"
        self.place.mkdir()
        self.files = WorkerFiles(self.place, os.getpid())
        self.addCleanup(self.files.end)

    def started(self) -> subprocess.Popen:
        process = subprocess.Popen(["sleep", "1000"])
        self.addCleanup(process.wait)
        self.addCleanup(process.kill)
        return process

    def write(self, name: str, *processes: int, seconds: float = 10.0) -> None:
        (self.place / name).write_text("".join(f"{process}\n" for process in processes))
        age(self.place / name, seconds)
        age(self.place)

    def test_a_file_is_read_once(self) -> None:
        one, other = self.started(), self.started()
        self.write("1.2.0", one.pid)
        self.write("1.2.1", other.pid, one.pid)
        (self.place / "notes").write_text("of somebody")
        (self.place / "1.2.3").mkdir()
        (self.place / "1.2.4").write_bytes(b"\xff\n")
        age(self.place)
        with mock.patch.object(worker_files, "numbers_in", wraps=worker_files.numbers_in) as read:
            for _ in range(3):
                self.assertEqual(self.files.running(), {("1.2", 0): one.pid, ("1.2", 1): one.pid})
            self.assertEqual([call.args[0][-5:] for call in read.call_args_list[:4]], ["1.2.0", "1.2.1", "1.2.3", "1.2.4"])
            self.assertFalse([call for call in read.call_args_list[4:] if call.args[0][-1] in "01"])
        self.assertEqual(self.files.launched(), {one.pid, other.pid})
        self.assertLess(age_since(self.files.since()[one.pid]), 60)

    def test_a_number_that_is_given_again(self) -> None:
        """A process of the service has the number of a worker that has ended: it is not taken for the worker."""
        worker = self.started()
        self.write("1.2.0", worker.pid)
        self.assertEqual(self.files.running(), {("1.2", 0): worker.pid})
        worker.kill()
        worker.wait()
        with mock.patch.object(worker_files, "runs_below", return_value=True), \
                mock.patch.object(worker_files, "start_of", return_value=1.0):
            for _ in range(2):
                self.assertEqual((self.files.running(), self.files.since(), self.files.launched()), ({}, {}, set()))

    def test_a_worker_that_ends_is_seen_at_once(self) -> None:
        worker = self.started()
        self.write("1.2.0", worker.pid)
        self.assertEqual(len(self.files.running()), 1)
        worker.kill()
        self.assertTrue(until(lambda: not self.files.running()))
        worker.wait()
        self.assertEqual(self.files.handles.owners, {})

    def test_the_next_worker_of_a_name(self) -> None:
        first, second = self.started(), self.started()
        self.write("1.2.0", first.pid)
        self.assertEqual(self.files.running(), {("1.2", 0): first.pid})
        self.write("1.2.0", second.pid, seconds=5)
        self.assertEqual(self.files.running(), {("1.2", 0): second.pid})
        self.assertEqual(len(self.files.handles.owners), 1)
        (self.place / "1.2.0").unlink()
        self.assertEqual((self.files.running(), self.files.handles.owners), ({}, {}))

    def test_a_file_that_was_just_written_may_be_written_again(self) -> None:
        """So it is read again, though it has the same size and time."""
        first, second = self.started(), self.started()
        moment = time.time_ns()
        for worker in (first, second):
            (self.place / "1.2.0").write_text(f"{worker.pid:>9}\n")
            os.utime(self.place / "1.2.0", ns=(moment, moment))
            self.assertEqual(self.files.running(), {("1.2", 0): worker.pid})

    def test_who_is_none_of_the_service(self) -> None:
        ended = subprocess.Popen(["true"])
        ended.wait()
        self.write("1.2.0", ended.pid)
        self.write("1.2.1", 1)
        self.assertEqual(self.files.running(), {})

    def test_a_folder_that_goes_and_comes_again(self) -> None:
        worker = self.started()
        self.write("1.2.0", worker.pid)
        self.assertEqual(len(self.files.running()), 1)
        shutil.rmtree(self.place)
        self.assertEqual((self.files.running(), self.files.handles.owners), ({}, {}))
        self.place.mkdir()
        self.write("1.2.0", worker.pid)
        self.assertEqual(self.files.running(), {("1.2", 0): worker.pid})

    def test_without_handles_files_are_read_each_time(self) -> None:
        worker = self.started()
        self.write("1.2.0", worker.pid)
        self.files.handles = Handles(0)
        for _ in range(2):
            self.assertEqual(self.files.running(), {("1.2", 0): worker.pid})
        worker.kill()
        self.assertTrue(until(lambda: not self.files.running()))


class UnchangedTest(unittest.TestCase):
    def test_a_file_holds_once_it_is_settled(self) -> None:
        with tempfile.TemporaryDirectory() as room:
            path = pathlib.Path(room) / "x"
            unchanged = Unchanged(path)
            self.assertFalse(unchanged.holds())
            path.write_text("one")
            self.assertEqual([unchanged.holds(), unchanged.holds()], [False, False])
            age(path)
            self.assertEqual([unchanged.holds(), unchanged.holds()], [False, True])
            path.write_text("other")
            self.assertFalse(unchanged.holds())
            path.unlink()
            self.assertEqual([unchanged.holds(), unchanged.holds()], [False, False])

    def test_a_file_from_the_future_never_holds(self) -> None:
        with tempfile.TemporaryDirectory() as room:
            age(pathlib.Path(room), -1000.0)
            self.assertFalse(signs.is_settled(signs.sign_of(room)))


if __name__ == "__main__":
    unittest.main()

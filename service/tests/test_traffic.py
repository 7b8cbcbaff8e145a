"""What workers of --wsgi count, and how the service adds it up."""
import contextlib
import os
import pathlib
import signal
import tempfile
import unittest
from unittest import mock

from kit import until
from prefork_service.traffic import BOUNDS, CountFile, Counter, Counts, Traffic, counts_in


class TrafficTest(unittest.TestCase):
    def setUp(self) -> None:
        room = tempfile.TemporaryDirectory()
        self.addCleanup(room.cleanup)
        self.room = pathlib.Path(room.name)
        self.traffic = Traffic(self.room / "traffic")
        self.addCleanup(self.traffic.end)

    def worker(self, name: str, *answers: tuple[int, float], busy: int = 0) -> int:
        """A process that has counted answers, and waits to be killed."""
        read, write = os.pipe()
        number = os.fork()
        if not number:
            counter = Counter(4, str(self.room), name)
            for status, seconds in answers:
                counter.note(status, seconds)
            counter.write(busy, 3, is_last=True)
            os.write(write, b"x")
            signal.pause()
            os._exit(0)
        os.close(write)
        os.read(read, 1)
        os.close(read)
        self.addCleanup(self.end, number)
        return number

    def end(self, number: int) -> None:
        try:
            os.kill(number, signal.SIGKILL)
            os.waitpid(number, 0)
        except (ProcessLookupError, ChildProcessError):
            pass

    def test_a_bucket_has_its_bound(self) -> None:
        for at, bound in enumerate(BOUNDS):
            counts = Counts()
            counts.note(200, bound)
            counts.note(200, bound + 1e-6)
            self.assertEqual((counts.buckets[at], counts.buckets[at + 1], sum(counts.buckets)), (1, 1, 2))

    def test_buckets_are_told_with_all_faster_answers(self) -> None:
        counts = Counts()
        for seconds in (0.001, 0.02, 0.02, 99.0):
            counts.note(204, seconds)
        told = {bucket["within"]: bucket["count"] for bucket in counts.as_json()["buckets"]}
        self.assertEqual((told[0.005], told[0.01], told[0.025], told[10.0]), (1, 1, 3, 3))
        self.assertEqual((counts.as_json()["count"], counts.as_json()["classes"]["2xx"]), (4, 4))

    def test_a_text_that_is_cut_has_no_counts(self) -> None:
        text = Counts(threads=7).packed()
        self.assertEqual(counts_in(text), Counts(threads=7))
        self.assertIsNone(counts_in(text[:-1]))
        self.assertIsNone(counts_in(b""))

    def test_nobody_counts(self) -> None:
        self.traffic.look()
        self.assertIsNone(self.traffic.told())
        self.assertIsNone(self.traffic.of(os.getpid()))
        self.assertIsNone(self.traffic.of(None))

    def test_what_a_worker_has_counted_stays_when_it_has_ended(self) -> None:
        first, second = self.worker("1.1.0", (200, 0.02), (500, 0.02), busy=2), self.worker("1.1.1", (404, 3.0))
        self.traffic.look()
        self.assertEqual(self.traffic.of(first), {"count": 2, "busy": 2, "threads": 4})
        told = self.traffic.told() or {}
        self.assertEqual((told["count"], told["busy"], told["threads"], told["lost_lines"]), (3, 2, 8, 6))
        self.assertEqual(told["classes"], {"1xx": 0, "2xx": 1, "3xx": 0, "4xx": 1, "5xx": 1})
        self.end(first)
        # Another one of its name counts from nothing.
        third = self.worker("1.1.0", (200, 0.0))
        for _ in range(2):
            self.traffic.look()
            told = self.traffic.told() or {}
            self.assertEqual((told["count"], told["busy"], told["threads"], told["lost_lines"]), (4, 0, 8, 9))
        self.assertEqual([self.traffic.of(one) for one in (first, second)], [None, {"count": 1, "busy": 0, "threads": 4}])
        self.assertEqual(self.traffic.of(third), {"count": 1, "busy": 0, "threads": 4})
        self.assertEqual(len(self.traffic.files), 2)

    def test_a_file_that_stays_is_counted_once(self) -> None:
        """Where the sum can't be written, or the file can't be removed."""
        (self.room / "traffic" / "ended").mkdir()
        for name, cannot in (("1.1.0", contextlib.nullcontext()), ("1.1.1", mock.patch.object(CountFile, "remove", side_effect=OSError))):
            with self.subTest(name), cannot:
                before = (self.traffic.told() or {"count": 0})["count"]
                self.end(self.worker(name, (200, 0.02)))
                for _ in range(3):
                    self.traffic.look()
                    self.assertEqual((self.traffic.told() or {})["count"], before + 1)

    def test_the_file_of_another_worker_with_the_same_number_stays(self) -> None:
        """It has come in the place of that of a worker that has ended, before that was looked at."""
        first = self.worker("1.1.0", (200, 0.02))
        file = self.room / "traffic" / f"1.1.0.{first}"
        self.traffic.look()
        self.end(first)
        counter = Counter(4, str(self.room), "1.1.0")
        self.addCleanup(os.close, counter.file)
        counter.note(200, 0.02)
        counter.note(200, 0.02)
        counter.write(0, 0, is_last=True)
        (self.room / "traffic" / f"1.1.0.{os.getpid()}").rename(file)
        # (its lock is this process's own, and so it is free to it)
        with mock.patch("prefork_service.traffic.is_free", side_effect=[True, False, False]):
            for wanted in (1, 3, 3):
                self.traffic.look()
                self.assertEqual((self.traffic.told() or {})["count"], wanted)
        self.assertTrue(file.exists())

    def test_more_files_than_may_be_open(self) -> None:
        with mock.patch("prefork_service.traffic.MOST_OPEN", 1):
            workers = [self.worker(f"1.1.{number}", (200, 0.02)) for number in range(3)]
            for _ in range(2):
                self.traffic.look()
                self.assertEqual(sum(file.file >= 0 for file in self.traffic.files.values()), 1)
                self.assertEqual((self.traffic.told() or {})["count"], 3)
            self.end(workers[0])
            self.end(workers[2])
            self.traffic.look()
            self.assertEqual(((self.traffic.told() or {})["count"], len(self.traffic.running)), (3, 1))

    def test_what_each_generation_has_answered(self) -> None:
        """Those of it that have ended count too, as long as one of it runs."""
        old, new = self.worker("1.9.0", (200, 0.0), (500, 0.0)), [self.worker("1.10.0", (200, 0.0)), self.worker("1.10.1", (503, 0.0))]
        self.end(new[0])
        new_counts = {"1xx": 0, "2xx": 1, "3xx": 0, "4xx": 0, "5xx": 1}
        for _ in range(2):
            self.traffic.look()
            self.assertEqual(self.traffic.by_generation(), {"1.9": {**new_counts, "2xx": 1, "5xx": 1}, "1.10": new_counts})
        self.end(old)
        self.traffic.look()
        self.assertEqual((self.traffic.told() or {})["generations"], {"1.10": new_counts})
        self.end(new[1])
        self.traffic.look()
        self.assertEqual(self.traffic.by_generation(), {})

    def test_a_process_that_a_worker_forks_does_not_hold_its_file(self) -> None:
        read, write = os.pipe()
        number = os.fork()
        if not number:
            Counter(1, str(self.room), "1.1.0").write(0, 0, is_last=True)
            if not os.fork():
                os.close(write)
                signal.alarm(20)
                signal.pause()
            os._exit(0)
        os.close(write)
        os.read(read, 1)
        os.close(read)
        os.waitpid(number, 0)
        self.traffic.look()
        self.assertEqual((self.traffic.running, self.traffic.files), ({}, {}))

    def test_without_a_folder_it_only_counts(self) -> None:
        for folder in (None, str(self.room / "nowhere")):
            counter = Counter(1, folder, "1.1.0")
            counter.note(200, 0.1)
            counter.write(1, 0, is_last=True)
            self.assertEqual(sum(counter.counts.buckets), 1)

    def test_a_file_is_written_once_in_a_while(self) -> None:
        counter = Counter(2, str(self.room), "1.1.0")
        self.addCleanup(os.close, counter.file)
        counter.write(0, 0)
        counter.note(200, 0.1)
        counter.write(1, 0)
        file = self.room / "traffic" / f"1.1.0.{os.getpid()}"
        self.assertEqual(sum((counts_in(file.read_bytes()) or Counts()).buckets), 0)

        def is_written() -> bool:
            counter.write(1, 0)
            return sum((counts_in(file.read_bytes()) or Counts()).buckets) == 1
        self.assertTrue(until(is_written))


if __name__ == "__main__":
    unittest.main()

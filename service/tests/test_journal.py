"""The journal: lines with times, which files they are in, and what is only counted."""
import pathlib
import re
import tempfile
import unittest
from unittest import mock

from prefork_service import journal
from prefork_service.journal import Journal


class JournalTest(unittest.TestCase):
    def setUp(self) -> None:
        room = tempfile.TemporaryDirectory()
        self.addCleanup(room.cleanup)
        self.path = pathlib.Path(room.name) / "journal"
        self.journal = Journal(self.path)

    def lines(self) -> list[str]:
        return [line.split(" ", 1)[1] for line in self.path.read_text().splitlines()]

    def test_a_line_has_a_time_and_is_one_line(self) -> None:
        self.journal.note("HUP: done\nnow")
        self.assertRegex(self.path.read_text(), r"^\d{4}-\d\d-\d\dT\d\d:\d\d:\d\d\.\d{3}[+-]\d\d:\d\d HUP: done now\n$")
        self.assertEqual(self.path.stat().st_mode & 0o777, 0o600)

    def test_ticks_that_end_alike_are_counted(self) -> None:
        for report in ("short", "short", "short", "shorter"):
            self.journal.note_tick(report)
        self.journal.note_tick("shorter")
        self.journal.end()
        self.assertEqual(self.lines(), ["tick: short", "tick: 2 more ended so", "tick: shorter", "tick: 1 more ended so"])

    def test_files_are_bounded(self) -> None:
        with mock.patch.object(journal, "MOST_JOURNAL_BYTES", 1000):
            for number in range(200):
                self.journal.note(f"{number} " + "x" * 100)
        files = sorted(self.path.parent.iterdir())
        self.assertEqual([file.name for file in files], ["journal", "journal.1", "journal.2", "journal.3"])
        self.assertTrue(all(file.stat().st_size < 1200 for file in files))
        numbers = [int(found) for file in reversed(files) for found in re.findall(r" (\d+) x", file.read_text())]
        self.assertEqual(numbers, list(range(numbers[0], 200)))

    def test_a_line_that_cannot_be_written_comes_later(self) -> None:
        with mock.patch("prefork_service.writing.say") as said:
            with mock.patch("os.open", side_effect=OSError(28, "No space left on device")):
                self.journal.note("one")
                self.journal.note("two")
            self.journal.tend()
        self.assertEqual(self.lines(), ["one", "two"])
        self.assertEqual(said.call_count, 2)


if __name__ == "__main__":
    unittest.main()

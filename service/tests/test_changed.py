"""Files that have to do with a worker that fails."""
import os
import pathlib
import tempfile
import unittest
from unittest import mock

from prefork_service.changed import MOST_CHANGES, Changed


class ChangedTest(unittest.TestCase):
    def setUp(self) -> None:
        room = tempfile.TemporaryDirectory()
        self.addCleanup(room.cleanup)
        self.room = pathlib.Path(room.name)
        for folder in ("commands", "errors"):
            (self.room / folder).mkdir()
        self.program, self.module = self.room / "app", self.room / "hello.py"
        self.program.write_text("1")
        self.module.write_text("1")
        (self.room / "commands" / "next").write_bytes(b"PREFORK_ADDRESSES=/a\0./app\0--check\0")
        (self.room / "errors" / "1.1.0").write_text(f'  File "{self.module}", line 12, in <module>\nZeroDivisionError\n')
        found = mock.patch.dict(os.environ, {"PREFORK_PLACE": str(self.room)})
        found.start()
        self.addCleanup(found.stop)
        self.changed = Changed(self.room)

    def replace(self, path: pathlib.Path, text: str) -> None:
        new = self.room / "new"
        new.write_text(text)
        new.replace(path)

    def test_the_program_and_the_files_of_a_trace(self) -> None:
        self.assertLessEqual({self.room / "./app", self.module}, self.changed.named(["1.1.0"]))
        self.assertFalse(self.changed.look(["1.1.0"]))
        self.assertFalse(self.changed.look(["1.1.0"]))
        self.replace(self.module, "22")
        self.assertTrue(self.changed.look(["1.1.0"]))
        self.assertFalse(self.changed.look(["1.1.0"]))
        self.replace(self.program, "22")
        self.assertTrue(self.changed.look(["1.1.0"]))

    def test_a_file_that_was_not_there(self) -> None:
        self.program.unlink()
        self.changed.look(["1.1.0"])
        self.replace(self.program, "22")
        self.assertTrue(self.changed.look(["1.1.0"]))

    def test_a_file_that_goes_and_comes_back(self) -> None:
        self.changed.look(["1.1.0"])
        self.program.unlink()
        self.assertTrue(self.changed.look(["1.1.0"]))
        self.assertFalse(self.changed.look(["1.1.0"]))
        self.replace(self.program, "22")
        self.assertTrue(self.changed.look(["1.1.0"]))

    def test_a_file_that_is_written_all_the_while(self) -> None:
        self.changed.look(["1.1.0"])
        found = []
        for number in range(MOST_CHANGES + 3):
            self.replace(self.module, "x" * (number + 2))
            found.append(self.changed.look(["1.1.0"]))
        self.assertEqual(found, [True] * MOST_CHANGES + [False] * 3)
        self.changed.look([])
        self.changed.look(["1.1.0"])
        self.replace(self.module, "y")
        self.assertTrue(self.changed.look(["1.1.0"]))

    def test_what_a_start_writes_itself_is_no_news(self) -> None:
        self.changed.look(["1.1.0"])
        self.replace(self.module, "22")
        self.changed.take(["1.1.0"])
        self.assertFalse(self.changed.look(["1.1.0"]))

    def test_where_nothing_fails_nothing_is_looked_at(self) -> None:
        self.changed.look(["1.1.0"])
        self.replace(self.module, "22")
        self.assertFalse(self.changed.look([]))
        self.assertFalse(self.changed.look(["1.1.0"]))


if __name__ == "__main__":
    unittest.main()

"""Files whose changes reload: which count, and that many changes are one."""
import os
import pathlib
import selectors
import tempfile
import unittest

from kit import until
from prefork_service.changes import Changes


class ChangesTest(unittest.TestCase):
    def setUp(self) -> None:
        room = tempfile.TemporaryDirectory(prefix="changes-")
        self.addCleanup(room.cleanup)
        self.room, self.told, self.events = pathlib.Path(room.name), list[set[str]](), selectors.DefaultSelector()
        (self.room / "within" / ".git").mkdir(parents=True)
        (self.room / "run").mkdir()
        (self.room / "app.py").write_text("1")

    def watch(self, *paths: pathlib.Path) -> None:
        self.changes = Changes(self.events, map(str, paths), [self.room / "run"], lambda: self.told.append(set()))
        self.addCleanup(self.changes.end)

    def turn(self) -> None:
        for key, _ in self.events.select(0.01):
            key.data(key.fileobj)
        self.changes.tend()

    def tells(self, count: int) -> bool:
        """Whether it has told this often, once all is quiet."""
        def is_over() -> bool:
            self.turn()
            return len(self.told) >= count and not self.changes.due

        return until(is_over) and len(self.told) == count

    def changed(self) -> set[str]:
        """What has changed, as it was heard so far."""
        while self.events.select(0):
            for key, _ in self.events.select(0):
                key.data(key.fileobj)
        return set(self.changes.changed)

    def test_many_changes_are_one(self) -> None:
        self.watch(self.room)
        for number in range(100):
            (self.room / f"module{number}.py").write_text("1")
        self.assertEqual(len(self.changed()), 100)
        self.assertTrue(self.tells(1))
        (self.room / "app.py").write_text("2")
        self.assertTrue(self.tells(2))

    def test_what_counts(self) -> None:
        self.watch(self.room)
        for name, does in {
            "app.py": lambda path: path.write_text("2"),
            "new.py": lambda path: path.with_name(".new").write_text("1") and path.with_name(".new").rename(path),
            "link": lambda path: path.symlink_to("app.py"),
            "gone.py": lambda path: path.write_text("1") and path.unlink(),
            "folder": lambda path: path.mkdir(),
        }.items():
            with self.subTest(name):
                does(self.room / name)
                self.assertEqual(self.changed(), {name})
                self.changes.changed.clear()
        (self.room / "folder" / "deep.py").write_text("1")
        (self.room / "within" / "here.py").write_text("1")
        self.assertEqual(self.changed(), {"deep.py", "here.py"})

    def test_what_does_not(self) -> None:
        self.watch(self.room)
        (self.room / "__pycache__").mkdir()
        (self.room / "__pycache__" / "app.cpython.pyc").write_text("1")
        for name in (".app.py.swp", "app.py~", "within/.git/index", "run/journal"):
            (self.room / name).write_text("1")
        with open(self.room / "half.py", "w") as file:
            # It is being written.
            file.write("1")
            file.flush()
            self.assertEqual((self.changed(), self.changes.due), (set(), 0.0))
        self.assertEqual(self.changed(), {"half.py"})

    def test_a_file_alone(self) -> None:
        self.watch(self.room / "app.py")
        (self.room / "other.py").write_text("1")
        self.assertEqual(self.changed(), set())
        # (as an editor saves)
        (self.room / "app.new").write_text("2")
        os.replace(self.room / "app.new", self.room / "app.py")
        self.assertEqual(self.changed(), {"app.py"})
        self.assertTrue(self.tells(1))

    def test_a_folder_and_a_file_in_it(self) -> None:
        self.watch(self.room / "app.py", self.room)
        (self.room / "other.py").write_text("1")
        self.assertEqual(self.changed(), {"other.py"})

    def test_a_path_that_is_missing(self) -> None:
        with self.assertRaises(FileNotFoundError):
            self.watch(self.room / "missing" / "app.py")


if __name__ == "__main__":
    unittest.main()

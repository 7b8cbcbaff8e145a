"""The folder of a service: what is its own, and what happens to the rest."""
import os
import pathlib
import subprocess
import tempfile
import unittest
from unittest import mock

from kit import until
from prefork_service.claiming import LONGEST_PATH, ClaimedFolder as Folder
from prefork_service.folder import FOLDER_MARK, plain, text_of


class FolderTest(unittest.TestCase):
    def setUp(self) -> None:
        room = tempfile.TemporaryDirectory(prefix="folder-")
        self.addCleanup(room.cleanup)
        self.path = pathlib.Path(room.name) / "run"

    def made(self) -> Folder:
        folder = Folder(str(self.path))
        self.addCleanup(lambda: os.close(folder.lock))
        folder.claim()
        return folder

    def left(self) -> list[str]:
        return sorted(file.name for file in self.path.iterdir())

    def refusal(self) -> str:
        with self.assertRaises(SystemExit) as refused:
            folder = Folder(str(self.path))
            self.addCleanup(lambda: os.close(folder.lock))
            folder.claim()
        return str(refused.exception)

    def test_a_folder_of_somebody_else_is_refused_and_stays_as_it_is(self) -> None:
        (self.path / "workers").mkdir(parents=True, mode=0o700)
        self.path.chmod(0o700)
        for name in ("site.toml", "config.toml", "journal"):
            (self.path / name).write_text(name)
        (self.path / "workers" / "__init__.py").write_text("")
        self.assertIn("is not empty, and is not the folder of a service", self.refusal())
        self.assertEqual(self.left(), ["config.toml", "journal", "site.toml", "workers"])
        self.assertTrue((self.path / "workers" / "__init__.py").exists())

    def test_what_a_service_did_not_make_is_never_removed(self) -> None:
        folder = self.made()
        (self.path / "workers" / "__init__.py").write_text("")
        for name in ("1.1.0", "1.1.1.ended"):
            (self.path / "workers" / name).write_text("1\n")
        (self.path / "notes").write_text("")
        folder.clear()
        self.assertEqual(self.left(), [FOLDER_MARK, "notes", "workers"])
        self.assertEqual([file.name for file in folder.workers.iterdir()], ["__init__.py"])

    def test_a_start_that_is_stopped_while_it_takes_the_folder_leaves_nothing(self) -> None:
        with mock.patch.object(Folder, "write_own", side_effect=SystemExit):
            folder = Folder(str(self.path))
            self.addCleanup(lambda: os.close(folder.lock))
            (self.path / "ctl.sock").touch()
            (self.path / "workers").mkdir()
            self.assertRaises(SystemExit, folder.claim)
        folder.pid.write_text("1\n")
        folder.clear()
        self.assertEqual(self.left(), [FOLDER_MARK])

    def test_what_another_service_has_in_its_folder_stays(self) -> None:
        self.made()
        other = Folder(str(self.path))
        self.addCleanup(lambda: os.close(other.lock))
        other.clear()
        self.assertEqual(self.left(), [FOLDER_MARK, "serve.pid", "traffic", "workers"])

    def test_survivors_are_told_of_a_start_as_long_as_it_takes(self) -> None:
        file = self.path / "survivors" / "1.1.0.4711"
        folder = Folder(str(self.path))
        self.addCleanup(lambda: os.close(folder.lock))
        file.parent.mkdir()
        file.touch()
        folder.claim()
        for _ in range(2):
            os.utime(file, (1, 1))
            self.assertTrue(until(lambda: file.stat().st_mtime > 1))
        folder.clear()
        self.assertTrue(file.exists())

    def test_the_folder_of_an_earlier_version_is_taken(self) -> None:
        (self.path / "records" / "1").mkdir(parents=True)
        self.path.chmod(0o700)
        for name in ("journal", "journal.1", "blocks"):
            (self.path / name).write_text("")
        self.made()
        self.assertTrue((self.path / FOLDER_MARK).exists())

    def test_a_file_named_workers_is_refused(self) -> None:
        folder = Folder(str(self.path))
        folder.claim()
        folder.clear()
        os.close(folder.lock)
        self.path.joinpath("workers").symlink_to("/")
        self.assertIn("workers is no folder", self.refusal())

    def test_a_path_that_is_too_long_for_sockets_is_refused(self) -> None:
        self.path = self.path / ("x" * LONGEST_PATH)
        self.assertIn(f"at most {LONGEST_PATH} bytes", self.refusal())

    def test_a_folder_that_is_removed_is_made_again(self) -> None:
        folder = self.made()
        self.assertFalse(folder.mend())
        subprocess.run(["rm", "-r", self.path], check=True)
        self.assertTrue(folder.mend())
        self.assertEqual(self.left(), [FOLDER_MARK, "reasons", "serve.pid", "traffic", "workers"])
        self.assertEqual(self.path.stat().st_mode & 0o777, 0o700)
        self.assertFalse(Folder.is_claimed(type("Other", (), {"lock": os.open(self.path, os.O_RDONLY)})()))  # type: ignore

    def test_texts_of_others(self) -> None:
        self.assertEqual(plain("a\x1b[31mb\n\x9bc\u202e"), "a?[31mb??c?")
        os.mkfifo(self.path.with_name("pipe"))
        with self.assertRaisesRegex(OSError, "no regular file"):
            text_of(self.path.with_name("pipe"))


if __name__ == "__main__":
    unittest.main()

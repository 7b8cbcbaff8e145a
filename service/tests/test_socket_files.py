"""What a socket that is opened finds at its path: the socket file of an earlier run is replaced, and nothing else."""
import os
import pathlib
import socket
import stat
import tempfile
import unittest
from unittest import mock

from prefork_service import socket_files
from prefork_service.opening import is_taken, listening
from prefork_service.web import opened

IN_USE = "Address already in use: "


class PlaceTest(unittest.TestCase):
    def setUp(self) -> None:
        room = tempfile.TemporaryDirectory(prefix="socket-files-")
        self.addCleanup(room.cleanup)
        self.room = pathlib.Path(room.name)
        self.path = self.room / "site.sock"

    def owner(self, path: pathlib.Path, kind: int = socket.SOCK_STREAM, queue: int = 8) -> socket.socket:
        """A socket of somebody at a path."""
        one = socket.socket(socket.AF_UNIX, kind)
        self.addCleanup(one.close)
        one.bind(str(path))
        if kind == socket.SOCK_STREAM:
            one.listen(queue)
        return one

    def refusal(self) -> str:
        """Why the path can't be opened, by the keeper and by a page alike. What is there stays as it was."""
        before = os.lstat(self.path)
        said = []
        for open_it in (lambda path: listening(path), opened):
            with self.assertRaises(OSError) as refused:
                open_it(str(self.path)).close()
            said.append((refused.exception.strerror or str(refused.exception)).removeprefix(f"{self.path}: "))
        after = os.lstat(self.path)
        self.assertEqual((before.st_ino, before.st_mode, before.st_mtime), (after.st_ino, after.st_mode, after.st_mtime))
        self.assertEqual(said[0], said[1])
        self.assertTrue(said[0].startswith(IN_USE), said[0])
        return said[0].removeprefix(IN_USE)

    def is_replaced(self) -> None:
        old = os.lstat(self.path)
        with listening(str(self.path)) as one, socket.socket(socket.AF_UNIX) as client:
            client.connect(str(self.path))
            one.accept()[0].close()
            self.assertNotEqual(os.lstat(self.path).st_ctime_ns, old.st_ctime_ns)

    def test_a_live_owner_keeps_its_socket(self) -> None:
        owner = self.owner(self.path)
        self.assertEqual(self.refusal(), "somebody listens there")
        with socket.socket(socket.AF_UNIX) as client:
            client.connect(str(self.path))
            owner.accept()[0].close()
        self.assertTrue(is_taken(str(self.path)))

    def test_a_live_owner_with_a_full_queue_keeps_its_socket(self) -> None:
        """Somebody who connects would wait there until the owner accepts."""
        self.owner(self.path, queue=0)
        with socket.socket(socket.AF_UNIX) as client, socket.socket(socket.AF_UNIX) as other:
            client.connect(str(self.path))
            other.setblocking(False)
            with self.assertRaises(BlockingIOError):
                other.connect(str(self.path))
            self.assertEqual(self.refusal(), "somebody listens there")
            self.assertTrue(is_taken(str(self.path)))

    def test_a_live_owner_of_another_kind_keeps_its_socket(self) -> None:
        self.owner(self.path, socket.SOCK_DGRAM)
        self.assertIn("whether somebody listens at it is not known", self.refusal())

    def test_the_socket_of_a_dead_owner_is_replaced(self) -> None:
        self.owner(self.path).close()
        self.assertFalse(is_taken(str(self.path)))
        self.is_replaced()

    def test_a_file_that_is_no_socket_stays(self) -> None:
        self.path.write_text("somebody's")
        self.assertEqual(self.refusal(), "a file is there, which is not removed")
        self.assertEqual(self.path.read_text(), "somebody's")

    def test_other_files_stay(self) -> None:
        self.path.mkdir()
        self.assertEqual(self.refusal(), "a folder is there, which is not removed")
        self.path.rmdir()
        os.mkfifo(self.path)
        self.assertEqual(self.refusal(), "a pipe is there, which is not removed")

    def test_a_symbolic_link_stays_wherever_it_leads(self) -> None:
        live, dead, missing = (self.room / name for name in ("live", "dead", "missing"))
        self.owner(live)
        self.owner(dead).close()
        for target in (live, dead, missing):
            self.path.symlink_to(target)
            self.assertEqual(self.refusal(), f"a symbolic link to {target} is there, which is not removed")
            self.assertEqual(missing.exists(), False)
            self.path.unlink()
        self.assertTrue(stat.S_ISSOCK(os.lstat(dead).st_mode))

    def test_where_a_long_link_leads_is_cut(self) -> None:
        self.path.symlink_to("x" * 900)
        self.assertLess(len(self.refusal()), 200)

    def test_a_file_that_has_come_since_stays(self) -> None:
        """Another process has replaced that of an earlier run, in the moment between."""
        self.owner(self.path).close()
        found = os.lstat(self.path)
        self.path.rename(self.room / "before")
        self.path.write_text("another's")
        with self.assertRaisesRegex(OSError, "another process opens it"):
            socket_files.remove(str(self.path), found)
        self.assertEqual(self.path.read_text(), "another's")

    def test_who_may_not_connect_removes_nothing(self) -> None:
        self.owner(self.path).close()
        denied = PermissionError(13, "Permission denied")
        with mock.patch.object(socket_files, "fault_of_call", lambda _: denied):
            self.assertIn("is not known: Permission denied", self.refusal())


if __name__ == "__main__":
    unittest.main()

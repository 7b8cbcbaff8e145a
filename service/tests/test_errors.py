"""Standard error that is full, closed, or read by nobody: nothing raises, and nothing blocks."""
import os
import pathlib
import signal
import subprocess
import tempfile
import threading
import unittest
from collections.abc import Callable
from typing import Any

from kit import BIN, PROGRAMS, PYTHON, SERVICE, built, free_address, until
from prefork_service.errors import MOST_ERRORS_WAITING, Errors, polled

SECONDS = 120
LINE = "x" * 99 + "\n"


def filled(end: int) -> None:
    """Fills a pipe."""
    os.set_blocking(end, False)
    for size in (65536, 4096, 1):
        try:
            while True:
                os.write(end, b"." * size)
        except BlockingIOError:
            pass
    os.set_blocking(end, True)


class ErrorsTest(unittest.TestCase):
    def setUp(self) -> None:
        self.reader, self.writer = os.pipe()
        self.addCleanup(lambda: [os.close(end) for end in (self.reader, self.writer) if end >= 0])

    def heard(self, holds: Callable[[str], bool], errors: Errors) -> str:
        """What comes out, until something holds of it."""
        got = b""
        os.set_blocking(self.reader, False)

        def more() -> bool:
            nonlocal got
            errors.flush()
            try:
                got += os.read(self.reader, 1 << 20)
            except BlockingIOError:
                pass
            return holds(got.decode())

        self.assertTrue(until(more), got[-200:])
        return got.decode()

    def test_what_is_written_comes_out(self) -> None:
        errors = Errors(self.writer)
        print("one", file=errors)
        errors.buffer.write(b"two\n")
        self.assertEqual(os.read(self.reader, 100), b"one\ntwo\n")
        self.assertTrue(os.get_blocking(self.writer))

    def test_a_reader_that_is_stopped_blocks_nobody_and_is_told_what_it_missed(self) -> None:
        errors = Errors(self.writer)
        for _ in range(3000):
            errors.write(LINE)
        self.assertGreater(errors.dropped, 0)
        self.assertLessEqual(len(errors.waiting), MOST_ERRORS_WAITING)
        missed = errors.dropped
        got = self.heard(lambda text: "which standard error did not take\n" in text, errors)
        self.assertIn(f"prefork: {missed} bytes of messages are lost", got)
        self.assertEqual(got.count(LINE) * len(LINE) + missed, 3000 * len(LINE))
        errors.write("again\n")
        self.heard(lambda text: text == "again\n", errors)

    def test_a_reader_that_has_ended(self) -> None:
        errors = Errors(self.writer)
        os.close(self.reader)
        self.reader = -1
        for _ in range(3000):
            errors.write(LINE)
        self.assertLessEqual(len(errors.waiting), MOST_ERRORS_WAITING)

    def test_a_device_that_is_full(self) -> None:
        with open("/dev/full", "wb") as full:
            errors = Errors(full.fileno())
            for _ in range(3000):
                errors.write(LINE)
            self.assertEqual(errors.dropped + len(errors.waiting), 3000 * len(LINE))

    def test_without_proc_a_full_pipe_takes_nothing(self) -> None:
        self.assertEqual(polled(self.writer, b"x" * 9000), 4096)
        filled(self.writer)
        self.assertEqual(polled(self.writer, b"x"), 0)

    def test_closed_descriptors_are_opened(self) -> None:
        code = "import sys, os; sys.path.insert(0, sys.argv[1])\nfrom prefork_service.errors import take_standard\n" \
            "take_standard()\nprint('said', file=sys.stderr)\nassert os.open('/', os.O_RDONLY) > 2\nos._exit(7)"
        command = ["sh", "-c", 'exec "$@" <&- >&- 2>&-', "sh", PYTHON, "-c", code, str(SERVICE)]
        self.assertEqual(subprocess.run(command).returncode, 7)


class WholeErrorsTest(unittest.TestCase):
    @classmethod
    def setUpClass(cls) -> None:
        built()

    def setUp(self) -> None:
        room = tempfile.TemporaryDirectory(prefix="errors-")
        self.addCleanup(room.cleanup)
        self.room = pathlib.Path(room.name)
        text = f'listeners = ["{free_address()}"]\nworkers = 2\ncommand = ["true"]\n'
        (self.room / "site.toml").write_text(text)

    def ctl(self, word: str) -> int:
        command = [BIN / "prefork-ctl", "--folder", self.room / "run", word]
        return subprocess.run(command, capture_output=True, timeout=SECONDS).returncode

    def starts(self) -> int:
        """How often a master was started."""
        journal = self.room / "run" / "journal"
        return journal.read_text().count(" starts; its blocks are in ") if journal.exists() else 0

    def serves_with(self, errors: Any, ends: str = "") -> None:
        """A service serves, its master is killed, and it serves on, and ends, with this standard error."""
        environment = {name: text for name, text in os.environ.items() if name != "PYTHONUNBUFFERED"}
        command = ["sh", "-c", f'exec "$@" {ends}', "sh", BIN / "prefork-serve", "--prefork", PROGRAMS / "master.py", "site.toml"]
        serve = subprocess.Popen(command, cwd=self.room, env=environment, stderr=errors)
        self.addCleanup(lambda: (serve.kill(), serve.wait(SECONDS)))
        self.assertTrue(until(lambda: self.ctl("status") == 0, SECONDS))
        self.assertTrue(until(lambda: self.ctl("HUP") == 0, SECONDS))
        for word in range(40):
            self.ctl(f"word {word}" + "x" * 40)
        self.kill_master(serve.pid)
        self.assertTrue(until(lambda: self.starts() == 2, SECONDS))
        self.assertTrue(until(lambda: self.ctl("HUP") == 0, SECONDS))
        self.assertEqual(self.ctl("QUIT"), 0)
        self.assertEqual(serve.wait(SECONDS), 0)

    def kill_master(self, serve: int) -> None:
        for text in pathlib.Path(f"/proc/{serve}/task/{serve}/children").read_text().split():
            if "supervise" in pathlib.Path(f"/proc/{text}/cmdline").read_text():
                os.kill(int(text), signal.SIGKILL)

    def test_it_is_full(self) -> None:
        with open("/dev/full", "wb") as full:
            self.serves_with(full)

    def test_its_reader_has_ended(self) -> None:
        reader, writer = os.pipe()
        os.close(reader)
        self.addCleanup(os.close, writer)
        self.serves_with(writer)

    def test_its_reader_is_stopped(self) -> None:
        reader, writer = os.pipe()
        self.addCleanup(lambda: (os.close(reader), os.close(writer)))
        filled(writer)
        self.serves_with(writer)

    def test_it_is_closed(self) -> None:
        self.serves_with(None, "2>&-")

    def test_it_is_a_socket(self) -> None:
        import socket
        one, other = socket.socketpair()
        said: list[bytes] = []
        thread = threading.Thread(target=lambda: said.extend(iter(lambda: one.recv(65536), b"")))
        thread.start()
        self.serves_with(other)
        other.close()
        thread.join()
        one.close()
        self.assertIn(b"prefork-serve: QUIT: done", b"".join(said))


if __name__ == "__main__":
    unittest.main()

"""What workers said last, and the process that keeps it."""
import os
import pathlib
import re
import subprocess
import tempfile
import unittest

from kit import OUT, built, until
from prefork_service.last_lines import KEPT, MOST_FILES, LastLines, is_complete, lines_of, shown


class LinesTest(unittest.TestCase):
    def test_the_end_of_a_text_in_whole_lines(self) -> None:
        self.assertEqual(lines_of(b"one\n\ttwo\n\nthree"), ["one", "    two", "three"])
        long = b"".join(b"line %d\n" % number for number in range(2000))
        found = lines_of(long)
        self.assertEqual(found[-1], "line 1999")
        self.assertTrue(all(re.fullmatch(r"line \d+", line) for line in found))
        self.assertEqual(len(lines_of(b"x" * 9000)[0]), KEPT)

    def test_what_moves_a_cursor_is_left_out(self) -> None:
        self.assertEqual(lines_of(b"\x1b[31mred\x1b[0m\r\n\xff"), ["[31mred[0m", "\ufffd"])

    def test_people_are_told_the_last_lines_of_two_workers(self) -> None:
        told = shown({name: [f"{name} {number}" for number in range(30)] for name in "abc"})
        self.assertEqual((told[0], told[1], told[20], told[21], len(told)),
                         ("worker a said last:", "    a 10", "    a 29", "worker b said last:", 42))


class LastLinesTest(unittest.TestCase):
    """prefork-launch as it starts a worker, and the file that is kept."""

    @classmethod
    def setUpClass(cls) -> None:
        built()

    def setUp(self) -> None:
        room = tempfile.TemporaryDirectory()
        self.addCleanup(room.cleanup)
        self.room = pathlib.Path(room.name)
        for folder in ("commands", "workers"):
            (self.room / folder).mkdir()
        self.errors = LastLines(self.room / "errors")

    def run_worker(self, script: str, form: str = "named", number: int = 0) -> bytes:
        """What comes on standard error of a worker that is a script of the shell."""
        (self.room / "commands" / "next").write_bytes(b"sh\0-c\0" + script.encode() + b"\0")
        (self.room / "commands" / "1.1").unlink(missing_ok=True)
        environment = {"PATH": "/usr/bin:/bin", "PREFORK_FOLDER": str(self.room), "PREFORK_LOG": form}
        line = f"worker 1.1 {number} 7\n".encode()
        return subprocess.run([OUT / "prefork-launch", "child"], input=line, env=environment, stderr=subprocess.PIPE, timeout=60).stderr

    def test_each_line_has_the_name_of_its_worker_and_the_end_is_kept(self) -> None:
        said = self.run_worker("echo one >&2; printf 'two\\nthree' >&2; exit 3", number=7)
        self.assertEqual(said, b"1.1.7: one\n1.1.7: two\n1.1.7: three\n")
        self.assertEqual(self.errors.of(["1.1.7", "1.1.8"]), {"1.1.7": ["one", "two", "three"]})

    def test_with_the_time_and_plain(self) -> None:
        self.assertRegex(self.run_worker("echo one >&2", "timed").decode(), r"\A\d{4}-\d\d-\d\dT\d\d:\d\d:\d\d\.\d{3} 1\.1\.0: one\n\Z")
        self.assertEqual(self.run_worker("printf 'one\\ntwo' >&2", "plain"), b"one\ntwo")
        self.assertEqual(self.errors.of(["1.1.0"]), {"1.1.0": ["one", "two"]})

    def test_a_long_text_and_a_long_line(self) -> None:
        said = self.run_worker("seq 20000 >&2")
        self.assertEqual(said, b"".join(b"1.1.0: %d\n" % number for number in range(1, 20001)))
        found = self.errors.of(["1.1.0"])["1.1.0"]
        self.assertEqual(found[-1], "20000")
        self.assertEqual(found, [str(number) for number in range(20001 - len(found), 20001)])
        self.assertGreater(len(found), 400)
        self.assertLessEqual((self.room / "errors" / "1.1.0").stat().st_size, 2 * KEPT)
        said = self.run_worker("head -c 100000 /dev/zero | tr '\\0' x >&2")
        self.assertEqual(said.replace(b"1.1.0: ", b"").replace(b"\n", b""), b"x" * 100000)

    def test_a_worker_that_is_followed_by_its_children(self) -> None:
        """The reader ends with the last one that can write. What was said so far is there before."""
        reads, writes = os.pipe()
        (self.room / "commands" / "next").write_bytes(b"sh\0-c\0echo begun >&2; (read line; echo late >&2) & exit 3\0")
        environment = {"PATH": "/usr/bin:/bin", "PREFORK_FOLDER": str(self.room)}
        script = f'printf "worker 1.1 0 7\\n" | "{OUT}/prefork-launch" child'
        with subprocess.Popen(["sh", "-c", script], env=environment, stderr=writes):
            os.close(writes)
            self.assertTrue(until(lambda: (self.room / "errors" / "1.1.0").exists() and self.errors.of(["1.1.0"])))
        with open(reads, "rb") as said:
            self.assertEqual(said.read().splitlines()[0], b"1.1.0: begun")
        self.assertTrue(until(lambda: is_complete(self.room / "errors" / "1.1.0")))

    def test_old_files_are_removed(self) -> None:
        for number in range(MOST_FILES + 3):
            path = self.room / "errors" / f"1.1.{number}"
            path.touch()
            os.utime(path, (number, number))
        self.errors.forget_old()
        self.assertEqual(sorted(int(it.name[4:]) for it in (self.room / "errors").iterdir()), list(range(3, MOST_FILES + 3)))


if __name__ == "__main__":
    unittest.main()

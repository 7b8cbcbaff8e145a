"""A trial of the next version, and a check of a start."""
import os
import pathlib
import subprocess
import tempfile
import unittest

from kit import BIN, PROGRAMS, PYTHON, SERVICE, built, free_address
from prefork_service.measures import memory_of, tree_of

SECONDS = 120
APP = """import os, socket, sys
if os.path.exists("broken"):
    sys.exit("no database")
one = socket.socket(fileno=3)
one.setblocking(True)
while True:
    client, _ = one.accept()
    client.close()
"""


class TrialTest(unittest.TestCase):
    @classmethod
    def setUpClass(cls) -> None:
        built()

    def setUp(self) -> None:
        room = tempfile.TemporaryDirectory(prefix="trial-")
        self.addCleanup(room.cleanup)
        self.room = pathlib.Path(room.name)
        (self.room / "app.py").write_text(APP)
        self.address = free_address()
        self.config = self.room / "site.toml"
        self.config.write_text(f'listeners = ["{self.address}"]\nworkers = 2\n')

    def tried(self, *command: str) -> tuple[list[str], list[str]]:
        """The notes and the block of a trial."""
        code = "import sys; from prefork_service import trial; sys.exit(trial.main(sys.argv[1:]))"
        given, text = [str(self.config), str(self.room), "30"], "".join(f"{word}\0" for word in command)
        environment = {**os.environ, "PYTHONPATH": str(SERVICE), "PREFORK_LOG": "named"}
        found = subprocess.run([PYTHON, "-c", code, *given], input=text, env=environment, capture_output=True, text=True, timeout=SECONDS)
        self.assertEqual(found.returncode, 0, found.stderr)
        lines = found.stdout.splitlines()
        return [line[5:] for line in lines if line.startswith("note ")], [line for line in lines if not line.startswith("note ")]

    def test_one_that_is_ready_is_measured_and_ended(self) -> None:
        notes, block = self.tried(str(SERVICE / "out" / "prefork-activate"), "--", PYTHON, "app.py")
        self.assertEqual(block, ["word try HUP", "done ready"])
        self.assertRegex(notes[0], r"^ready after \d+\.\d s, with [1-9]\d* MB$")
        self.assertEqual(len(notes), 1)

    def test_one_that_is_not_ready_says_why(self) -> None:
        (self.room / "broken").touch()
        notes, block = self.tried(str(SERVICE / "out" / "prefork-activate"), "--", PYTHON, "app.py")
        self.assertEqual(block, ["word try HUP", "failed not-ready"])
        self.assertIn("has ended by itself with status 1", notes[0])
        self.assertEqual(notes[1:3], ["worker 0.0.0 said last:", "    no database"])

    def test_one_without_a_program(self) -> None:
        notes, block = self.tried("/nonexist/app")
        self.assertEqual((notes[0], block[-1]), ("/nonexist/app: No such file or directory", "failed not-ready"))

    def test_a_check_starts_nothing(self) -> None:
        for program, status, said in (
            ("true", 0, "site.toml: fits: 1 addresses, 2 workers\n"),
            ("no-such-program", 1, "PROGRAM: no-such-program: it is in no folder of PATH\n"),
        ):
            command = [BIN / "prefork-serve", "--check", "--prefork", PROGRAMS / "master.py", "site.toml", "--", program]
            found = subprocess.run(command, cwd=self.room, capture_output=True, text=True, timeout=SECONDS)
            self.assertEqual(found.returncode, status, found.stderr)
            self.assertIn(said, found.stdout + found.stderr)
            self.assertFalse((self.room / "run").exists())


class MeasuresTest(unittest.TestCase):
    def test_a_process_and_what_it_has_started(self) -> None:
        with subprocess.Popen(["sh", "-c", "sleep 1000 & echo x; wait"], stdout=subprocess.PIPE) as process:
            self.addCleanup(process.kill)
            assert process.stdout
            process.stdout.readline()
            found = tree_of(process.pid)
            self.assertEqual((len(found), found[0]), (2, process.pid))
            self.assertGreater(memory_of(process.pid), 0)
            for number in found:
                os.kill(number, 9)
        self.assertEqual(memory_of(process.pid), 0)


if __name__ == "__main__":
    unittest.main()

"""The blocks of a master, as they are cut out of its output."""
import os
import pathlib
import subprocess
import sys
import tempfile
import types
import unittest

from kit import OUT, SERVICE, built, until
from prefork_service.master import Master
from prefork_service.processes import is_ending
from prefork_service.words import Word

SCRIPT = "printf 'word tick 0\\ndone cause none\\nword beat 0 1\\nnothing\\nword HU'; sleep 0.2; printf 'P\\nrolled-back cause 2\\n'; cat"


# What has a master: bound or not.
OURS = """
import os, sys, time, types
from prefork_service.master import Master
room, is_bound = sys.argv[1], sys.argv[2] == "1"
script = "echo $$ >master; read line; echo $line >heard; cat; echo >ended"
folder = types.SimpleNamespace(lock=os.open(room, os.O_RDONLY))
os.chdir(room)
master = Master(["sh", "-c", script], folder, print, is_bound)
master.tell("HUP")
time.sleep(1000)
"""


class MasterTest(unittest.TestCase):
    @classmethod
    def setUpClass(cls) -> None:
        built()

    def test_blocks_come_whole_and_without_beats(self) -> None:
        with tempfile.TemporaryDirectory() as room:
            kept: list[str] = []
            folder = types.SimpleNamespace(lock=os.open(room, os.O_RDONLY))
            master, blocks = Master(["sh", "-c", SCRIPT], folder, kept.append), []
            while len(blocks) < 2:
                blocks += master.hear()
            self.assertEqual(blocks, ["word tick 0\ndone cause none\n", "word HUP\nrolled-back cause 2\n"])
            self.assertEqual(kept, [blocks[0], "word beat 0 1\nnothing\n", blocks[1]])
            self.assertEqual(master.beats, {0: 1})
            master.tell("word QUIT\ndone")
            master.finish()
            self.assertEqual(kept[3:], ["word QUIT\ndone\n"])
            master.process.stdout.close()

    def test_one_that_is_bound_dies_with_us_and_sees_no_end_of_its_input(self) -> None:
        """It would tell its workers to quit at that end. One that is not bound sees it."""
        for is_bound in (True, False):
            with tempfile.TemporaryDirectory() as room:
                place = pathlib.Path(room)
                ours = subprocess.Popen([sys.executable, "-c", OURS, room, str(int(is_bound))], cwd=SERVICE)
                self.assertTrue(until(lambda: (place / "heard").exists()))
                master = int((place / "master").read_text())
                ours.kill()
                ours.wait()
                self.assertTrue(until(lambda: is_ending(master)))
                self.assertEqual((place / "ended").exists(), not is_bound)

    def test_one_that_is_bound_ends_with_its_input(self) -> None:
        with tempfile.TemporaryDirectory() as room:
            folder = types.SimpleNamespace(lock=os.open(room, os.O_RDONLY))
            master = Master(["sh", "-c", "cat >/dev/null; exit 7"], folder, print, True)
            self.assertTrue(master.finish(60.0))
            self.assertEqual(master.process.returncode, 7)

    def test_one_whose_parent_has_ended_before_it_was_bound(self) -> None:
        found = subprocess.run([OUT / "prefork-launch", "bound", "1", "echo", "it runs"], capture_output=True)
        self.assertEqual((found.returncode, found.stdout), (1, b""))

    def test_a_word_nobody_waits_for_is_answered_to_nobody(self) -> None:
        Word("HUP").answer("done\n")


if __name__ == "__main__":
    unittest.main()

"""An upgrade that asks: who is told what, and when, by a service whose master only plays."""
import pathlib
import subprocess
import tempfile
import time
import unittest

from kit import BIN, PROGRAMS, built, until
from prefork_service.questions import state

UPGRADE = "USR2 attended"
# Longer than the time between two ticks.
PAUSE = 1.5
# The longest time that is waited for an answer or an end.
SECONDS = 60


class AttendedTest(unittest.TestCase):
    @classmethod
    def setUpClass(cls) -> None:
        built()

    def setUp(self) -> None:
        room = tempfile.TemporaryDirectory(prefix="attended-")
        self.addCleanup(room.cleanup)
        self.room = pathlib.Path(room.name)
        (self.room / "site.toml").write_text('command = ["false"]\nlisteners = []\nworkers = 1\n')
        self.said = open(self.room / "said", "w+")
        self.addCleanup(self.said.close)
        command = [BIN / "prefork-serve", "--prefork", PROGRAMS / "asking.py", "site.toml"]
        self.serve = subprocess.Popen(command, cwd=self.room, stderr=self.said, stdin=subprocess.DEVNULL)
        self.addCleanup(self.end)
        self.assertTrue(until(lambda: "tick" in self.told()))

    def end(self) -> None:
        if self.serve.poll() is None:
            self.heard("back")
            self.heard("QUIT")
        self.assertEqual(self.serve.wait(SECONDS), 0)

    def told(self) -> str:
        """What the master was told."""
        file = self.room / "told"
        return file.read_text() if file.exists() else ""

    def answered(self) -> str:
        """What the master was told since the upgrade began."""
        return self.told().partition(f"{UPGRADE}\n")[2]

    def sent(self, *words: str) -> subprocess.Popen:
        streams = {"stdout": subprocess.PIPE, "stderr": subprocess.PIPE}
        return subprocess.Popen([BIN / "prefork-ctl", *words], cwd=self.room, **streams, text=True)

    def heard(self, *words: str) -> tuple[int, str]:
        sent = self.sent(*words)
        text, _ = sent.communicate(timeout=SECONDS)
        return sent.returncode, text

    def asks(self, question: int) -> None:
        self.assertTrue(until(lambda: self.heard()[1].startswith(f"asks {question}: ")))

    def test_go_twice(self) -> None:
        sent = self.sent(UPGRADE)
        self.asks(1)
        self.assertEqual(self.heard("go"), (0, "word go\nanswered 1 go\n"))
        self.asks(2)
        self.assertEqual(self.heard("go"), (0, "word go\nanswered 2 go\n"))
        block, asked = sent.communicate(timeout=SECONDS)
        self.assertEqual((sent.returncode, block), (0, f"word {UPGRADE}\ndone cause none pid no-file\n"))
        # (on a busy machine it tells how far it is, too)
        told = [line.split(": ")[1] for line in asked.splitlines() if f": {UPGRADE}, for " not in line]
        self.assertEqual(told, ["it asks 1", "it asks 2", "runs now"])
        self.assertTrue(self.answered().startswith("WINCH\nWINCH\n"))
        self.assertTrue(self.heard()[1].startswith("asks nothing"))

    def test_back_at_each_question(self) -> None:
        for before in ([], ["go"]):
            sent = self.sent("USR2", "attended")
            for word in before:
                self.asks(1)
                self.heard(word)
            self.asks(1 + len(before))
            self.assertEqual(self.heard("back")[0], 0)
            self.assertEqual(sent.communicate(timeout=SECONDS)[0].splitlines()[-1], "rolled-back cause 1 pid no-file")
            self.assertEqual(sent.returncode, 3)
        words = [line for line in self.answered().splitlines() if not line.startswith("tick ")]
        self.assertEqual(words, ["HUP", UPGRADE, "WINCH", "HUP"])

    def test_nothing_is_told_while_it_asks(self) -> None:
        self.sent(UPGRADE).stdout.close()
        self.asks(1)
        waiting = [self.sent("TTIN")]
        self.assertTrue(until(lambda: "1 more word waits" in self.heard()[1]))
        waiting.append(self.sent("QUIT"))
        self.assertTrue(until(lambda: "2 more words wait" in self.heard()[1]))
        time.sleep(PAUSE)
        self.assertEqual(self.answered(), "")
        self.heard("back")
        heard = [word.communicate(timeout=SECONDS)[0].split("\n")[0] for word in waiting]
        # A stop goes before what waits.
        self.assertEqual(heard, ["lost: the service has stopped", "word QUIT"])
        self.assertEqual(self.serve.wait(SECONDS), 0)
        self.assertEqual(self.answered(), "HUP\nQUIT\n")

    def test_an_answer_to_nothing_is_refused(self) -> None:
        for word in ("go", "back"):
            self.assertEqual(self.heard(word), (1, f"word {word}\nrefused not-asked\n"))
        self.assertNotIn("WINCH", self.told())
        self.assertNotIn("HUP", self.told())

    def test_messages_are_passed_on_and_the_log_is_not(self) -> None:
        self.assertTrue(until(lambda: "prefork: a message\n" in (self.room / "said").read_text()))
        self.heard("HUP")
        self.assertNotIn("[INFO", (self.room / "said").read_text())

    def test_a_master_that_ends_while_it_asks(self) -> None:
        sent = self.sent(UPGRADE)
        self.asks(1)
        found = subprocess.run(["pgrep", "-P", str(self.serve.pid), "-f", "asking.py"], capture_output=True, text=True)
        subprocess.run(["kill", "-9", *found.stdout.split()], check=True)
        self.assertEqual(sent.communicate(timeout=SECONDS)[0], "lost: the master has ended\n")
        self.assertTrue(until(lambda: self.heard()[1] == "asks nothing\n"))
        self.assertEqual(self.heard("go")[0], 1)
        self.assertEqual(self.heard("HUP")[0], 0)


class QuestionTest(unittest.TestCase):
    def test_what_is_said_of_a_service(self) -> None:
        self.assertEqual(state(0, None, 0), "asks nothing\n")
        self.assertEqual(state(0, "tick 7", 0), "asks nothing\n")
        self.assertEqual(state(0, "HUP", 1), "asks nothing: HUP is being carried out\n1 more word waits\n")
        for question in (1, 2):
            self.assertIn("prefork-ctl back: ", state(question, UPGRADE, 0))


if __name__ == "__main__":
    unittest.main()

"""How far a word is."""
import io
import os
import pty
import subprocess
import sys
import time
import unittest
from typing import Any
from unittest import mock

from kit import SERVICE
from prefork_service import following
from prefork_service.following import Follower
from prefork_service.progress import Running, Progress, counts_of, is_newer


def run(*generations: str) -> list[dict[str, Any]]:
    return [{"generation": generation, "process": 7 + number} for number, generation in enumerate(generations)]


def far(seconds: float) -> dict[str, Any]:
    return Progress().of("HUP", 0.0, seconds, counts_of("1.9", 1, run("1.9", "1.10")), 1)


class ProgressTest(unittest.TestCase):
    def test_which_generation_is_newer(self) -> None:
        for newer, older in (("1.10", "1.9"), ("2.1", "1.9"), ("1.1", "")):
            self.assertTrue(is_newer(newer, older))
            self.assertFalse(is_newer(older, newer) if older else is_newer(newer, newer))

    def test_new_and_old_workers(self) -> None:
        ended = [{"generation": "1.9", "process": None}]
        counts = counts_of("1.9", 4, [*run("1.9", "1.9", "1.8", "1.10"), *ended])
        told = Progress().of("HUP", 100.0, 108.9, counts, 4)
        line = "HUP, for 8 s: 1 of 4 new and 3 old workers run; new workers start, for 8 s"
        self.assertEqual(told, {"word": "HUP", "seconds": 8, "new": 1, "old": 3, "wanted": 4, "ready": 0, "step": "new workers start",
                                "step_seconds": 8, "line": line})
        for old, wanted in ((1, "QUIT, for 3 s: 1 worker runs; old workers finish, for 3 s"),
                            (2, "QUIT, for 3 s: 2 workers run; old workers finish, for 3 s")):
            self.assertEqual(Progress().of("QUIT", 0.0, 3.0, Running(0, old, 2), 0)["line"], wanted)

    def test_the_steps_of_a_word_and_since_when_each_is_waited_for(self) -> None:
        progress, told = Progress(), []
        for now, new, old in ((1, 0, 3), (2, 1, 3), (5, 3, 3), (8, 3, 3), (9, 3, 2), (11, 3, 0)):
            far = progress.of("HUP", 0.0, now, Running(new, old, 3), 3)
            told.append((far["step"], far["step_seconds"]))
        self.assertEqual(told, [
            ("new workers start", 1), ("new workers start", 2), ("the new workers are to be ready", 0),
            ("the new workers are to be ready", 3), ("old workers finish", 0), ("the end of the word", 0),
        ])
        self.assertEqual(progress.of("HUP", 20.0, 21.0, Running(0, 3, 3), 3)["step_seconds"], 1)

    def test_the_new_workers_become_ready_one_after_another(self) -> None:
        progress, told = Progress(), []
        for ready in range(4):
            far = progress.of("HUP", 0.0, 9.0, Running(3, 2, 2, ready), 3)
            told.append((far["ready"], far["step"]))
        self.assertEqual(told, [*((ready, "the new workers are to be ready") for ready in range(3)), (3, "old workers finish")])
        self.assertIn("3 of 3 new (3 ready) and 2 old workers run; old workers finish", far["line"])
        self.assertEqual(progress.of("HUP", 0.0, 9.0, Running(3, 0, 2, 3), 3)["step"], "the end of the word")
        # (after WINCH no old one runs)
        self.assertEqual(Progress().of("HUP", 0.0, 9.0, Running(3, 0, 0), 3)["step"], "the new workers are to be ready")

    def test_a_question_waits_for_its_answer(self) -> None:
        self.assertEqual(Progress().of("USR2 attended", 0.0, 9.0, Running(3, 2, 2, 3), 3, 1)["step"], "its question is to be answered")

    def test_words_that_start_no_generation(self) -> None:
        for word, old, step in (("TTIN", 2, "another worker starts"), ("TTIN", 3, "the other worker is to be ready"), ("USR1", 2, "the end of the word")):
            self.assertEqual(Progress().of(word, 0.0, 9.0, Running(0, old, 2), 0)["step"], step)

    def test_a_word_that_goes_back(self) -> None:
        progress = Progress()
        steps = [progress.of("HUP", 0.0, 1.0, Running(new, 3, 3), 3)["step"] for new in (1, 3, 2, 0)]
        self.assertEqual(steps[2:], ["new workers have ended"] * 2)


class Terminal(io.StringIO):
    def isatty(self) -> bool:
        return True


class FollowerTest(unittest.TestCase):
    def followed(self, output: io.StringIO, statuses: list[Any], period: float = 0.01) -> str:
        """What is shown while these are the statuses, one after another."""
        left = list(statuses)

        def ask() -> dict[str, Any]:
            if not left:
                raise OSError("it has ended")
            found = left.pop(0)
            if isinstance(found, Exception):
                raise found
            return found
        with mock.patch.object(following, "TERMINAL_SECONDS", period), mock.patch.object(following, "SELDOM_SECONDS", period):
            with Follower(ask, output):
                deadline = time.monotonic() + 20
                while left and time.monotonic() < deadline:
                    time.sleep(0.005)
                time.sleep(0.05)
        return output.getvalue()

    def test_a_line_that_moves_at_a_terminal_and_is_gone_at_the_end(self) -> None:
        states = [{"progress": far(seconds)} for seconds in (1.0, 2.0)]
        shown = self.followed(Terminal(), [*states, {"progress": None}])
        self.assertIn("\r\033[KHUP, for 1 s: 1 of 1 new and 1 old workers run; the new workers are to be ready, for 1 s\r\033[KHUP, for 2 s: ", shown)
        self.assertTrue(shown.endswith("\r\033[K"))

    def test_standard_error_of_these_programs_is_known_as_a_terminal(self) -> None:
        code = f"import sys; sys.path.insert(0, {str(SERVICE)!r}); from prefork_service.errors import take_standard; take_standard(); " \
            "print(sys.stderr.isatty())"
        ours, theirs = pty.openpty()
        try:
            for errors, wanted in ((theirs, "True\n"), (subprocess.DEVNULL, "False\n")):
                found = subprocess.run([sys.executable, "-c", code], stdout=subprocess.PIPE, stderr=errors, text=True, timeout=60)
                self.assertEqual(found.stdout, wanted)
        finally:
            os.close(ours)
            os.close(theirs)

    def test_lines_elsewhere(self) -> None:
        states = [{"progress": far(seconds)} for seconds in (1.0, 2.0, 3.0)]
        shown = self.followed(io.StringIO(), [*states, OSError("nobody")])
        self.assertEqual(shown.splitlines()[0], "prefork-ctl: HUP, for 1 s: 1 of 1 new and 1 old workers run; the new workers are to be ready, for 1 s")
        self.assertNotIn("\033", shown)
        self.assertEqual(len(shown.splitlines()), 3)

    def test_a_word_that_is_done_at_once_shows_nothing(self) -> None:
        output = Terminal()
        with Follower(lambda: {"progress": far(0.0)}, output):
            pass
        self.assertEqual(output.getvalue(), "")


if __name__ == "__main__":
    unittest.main()

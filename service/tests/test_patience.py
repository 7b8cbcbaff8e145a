"""A master that hangs is killed, and a stop has its end."""
import os
import pathlib
import re
import signal
import tempfile
import time
import types
import unittest
from typing import Any
from unittest import mock

from kit import clock_ahead, until
from prefork_service import patience
from prefork_service.master import Master
from prefork_service.patience import MARGIN, MOST_TURN, Patience
from prefork_service.certifying import blocks_of
from test_faults import SECONDS, FaultyTest

LIMITS = ["--answer-within", "3", "--ready-within", "60"]


class PatienceTest(unittest.TestCase):
    def setUp(self) -> None:
        room = tempfile.TemporaryDirectory()
        self.addCleanup(room.cleanup)
        self.workers = pathlib.Path(room.name)
        self.patience = Patience(self.workers)
        self.patience.take_limits(LIMITS)
        self.ahead = 0.0

    def is_over_after(self, seconds: float) -> bool:
        """Whether it is over after some seconds, in turns of a second."""
        found = False
        for _ in range(int(seconds)):
            self.ahead += 1
            with mock.patch.object(patience, "time", clock_ahead(self.ahead)):
                found = self.patience.spend()
        return found

    def test_a_tick_has_less_time_than_another_word(self) -> None:
        self.patience.begin(True)
        self.assertFalse(self.is_over_after(2 * 3 + MARGIN - 1))
        self.assertTrue(self.is_over_after(3))
        self.ahead = 0.0
        self.patience.begin(False)
        self.assertFalse(self.is_over_after(4 * 3 + 60 + MARGIN - 1))
        self.assertTrue(self.is_over_after(3))

    def test_a_worker_that_starts_has_its_time(self) -> None:
        self.patience.begin(True)
        file = self.workers / "1.1.0"
        file.write_text("1\n")
        self.assertFalse(self.is_over_after(2 * 3 + MARGIN + 2))
        os.utime(file, (time.time() + 9, time.time() + 9))
        self.assertFalse(self.is_over_after(4 * 3 + 60 + MARGIN))
        self.assertTrue(self.is_over_after(4 * 3 + 60 + MARGIN + 3))

    def test_without_limits_there_is_none(self) -> None:
        self.patience.take_limits([])
        self.patience.begin(True)
        self.assertFalse(self.is_over_after(10_000))

    def test_no_time_passes_while_the_machine_is_stopped(self) -> None:
        self.patience.begin(True)
        self.ahead = 10_000.0
        with mock.patch.object(patience, "time", clock_ahead(self.ahead)):
            self.assertFalse(self.patience.spend())
        self.assertLessEqual(self.patience.spent, MOST_TURN)

    def test_a_master_that_does_not_end_after_a_stop_is_killed(self) -> None:
        for script, wanted in (("cat", True), ("exec sleep 1000", False), ("exec >&-; sleep 1000", True)):
            folder: Any = types.SimpleNamespace(lock=os.open(self.workers, os.O_RDONLY))
            self.addCleanup(os.close, folder.lock)
            with mock.patch("prefork_service.master.MASTER_END_SECONDS", 0.2):
                self.assertEqual(Master(["sh", "-c", script], folder, print).finish(1.0), wanted, script)


class HangingTest(FaultyTest):
    def setUp(self) -> None:
        self.more = {"HELP": "--answer-within <S>", "MARGIN": "1"}
        self.options = ["--answer-within", "1", "--ready-within", "1", "--finish", "1"]
        super().setUp()

    def journal(self) -> str:
        return (self.room / "run" / "journal").read_text()

    def is_another(self, first: list[int]) -> bool:
        return len(self.children("supervise")) == 1 and self.children("supervise") != first

    def test_at_rest(self) -> None:
        first = self.children("supervise")
        os.kill(first[0], signal.SIGSTOP)
        self.assertTrue(until(lambda: self.is_another(first), SECONDS), self.said.read_text())
        self.assertTrue(re.search(r"tick \d+: the master has not answered within 3 s, and is killed", self.said.read_text()))
        self.assertIn("the master has not answered within", self.journal())
        self.assertTrue(until(self.serves, SECONDS))

    def test_in_a_reload(self) -> None:
        first = self.children("supervise")
        os.kill(first[0], signal.SIGSTOP)
        self.assertRegex(self.asked("HUP"), "^lost: the master has ended\n|\ndone ")
        self.assertTrue(until(lambda: self.is_another(first), SECONDS))
        self.assertTrue(until(self.serves, SECONDS))

    def test_a_new_master_in_an_upgrade(self) -> None:
        first = self.children("supervise")
        (self.blocks / "adopt").write_text("import os, signal\nos.kill(os.getpid(), signal.SIGSTOP)\n")
        self.assertIn("\nrolled-back ", self.asked("USR2"))
        self.assertIn("USR2: the new master has not answered within", self.said.read_text())
        self.assertEqual(self.children("supervise"), first)
        self.assertTrue(until(self.serves, SECONDS))

    def test_a_new_master_that_has_ended_is_marked_in_the_record(self) -> None:
        records = self.room / "run" / "records"
        for number, master, wanted in (("1", "m2", 1), ("2", "m1", 0)):
            self.assertTrue(until(self.serves, SECONDS))
            (self.blocks / "TTIN").write_text(f"1 {master} census 1.1 : counted none\nlost cause 1 pid no-file\n")
            self.assertIn("\nlost cause 1", self.asked("TTIN"))
            self.assertTrue(until((records / str(int(number) + 1)).exists, SECONDS))
            blocks = (records / number / "blocks.1").read_text()
            marks = [file.name for file in (records / number).glob("lost.*")]
            self.assertEqual(len(marks), wanted, self.said.read_text())
            if marks:
                self.assertEqual(marks, [f"lost.{len(blocks_of(blocks))}"])

    def test_a_stop(self) -> None:
        first = self.children("supervise")
        os.kill(first[0], signal.SIGSTOP)
        self.assertIn("lost: the service ", self.asked("QUIT"))
        self.assertEqual(self.serve.wait(SECONDS), 1)
        self.assertIn("everything is killed", self.said.read_text())
        self.assertTrue(until(lambda: not pathlib.Path(f"/proc/{first[0]}/cmdline").exists(), SECONDS))
        self.assertFalse((self.room / "run" / "ctl.sock").exists())


if __name__ == "__main__":
    unittest.main()

"""A stop that was accepted ends the service, whichever process ends during it, and whatever raises."""
import os
import signal
import subprocess
import sys
import threading
import time
import unittest
from typing import Any

from kit import until
from prefork_service.stopping import ALONE
from prefork_service.words import STOPS
from test_faults import SECONDS, FaultyTest

FINISHED = f"lost: {ALONE}; its workers have finished\n"
# What a stop calls, and what it calls once its master has ended.
CALLED = [
    "service.Service.begin_word", "service.Service.end_word", "service.Service.settle", "service.Service.conclude", "master.Master.tell",
    "master.Master.finish", "patience.Hanging.finish", "keeping.KeeperProcess.seal", "stopping.Stopping.finish", "stopping.Stopping.tend",
    "stopping.Stopping.look", "stopping.Stopping.end",
]
CALLED_ALONE = [
    "service.Service.end_master", "service.Service.release_master", "master.Master.close", "leaving.Leaving.take_all", "chronicle.Chronicle.cut_word",
    "stopping.Stopping.is_due", "stopping.Stopping.begin", "stopping.Stopping.tend", "stopping.Stopping.look", "stopping.Stopping.end",
]
WORKER = "import signal, sys, time; signal.signal(signal.SIGTERM, signal.SIG_IGN); sys.stdin.read(); time.sleep(float(sys.argv[1]))"


class Stopped(FaultyTest):
    """A service that is stopped while its master does not get on."""

    options = ["--answer-within", "15", "--ready-within", "90", "--finish", "90"]
    more = {"HELP": "--answer-within <S>", "MARGIN": "1"}

    def asks(self, word: str) -> tuple[threading.Thread, list[str]]:
        """Says a word, whose answer is there once the thread has ended."""
        heard: list[str] = []
        thread = threading.Thread(target=lambda: heard.append(self.asked(word)), daemon=True)
        thread.start()
        return thread, heard

    def held(self, word: str) -> tuple[threading.Thread, list[str]]:
        """A master that carries out a word, and does not get on."""
        (self.blocks / "hangs").write_text(word)
        asked = self.asks(word)
        self.assertTrue(until(lambda: (self.blocks / "is_held").exists(), SECONDS), self.said.read_text()[-2000:])
        return asked

    def starts(self) -> int:
        return (self.room / "run" / "journal").read_text().count(" starts; its blocks are in ")

    def ends(self, status: int = 0) -> None:
        self.assertEqual(self.serve.wait(SECONDS), status, self.said.read_text()[-4000:])
        self.assertEqual({file.name for file in (self.room / "run").iterdir()}, {"journal", "records", "blocks", ".prefork"})

    def again(self) -> None:
        """Another service in the same place."""
        self.doCleanups()
        self.setUp()

    def worker(self, name: str, seconds: float) -> Any:
        """A process in the place of a worker, whose input ends with its master's."""
        command = [sys.executable, "-S", "-c", WORKER, str(seconds)]
        environment = {**os.environ, "PREFORK_FOLDER": str(self.room / "run")}
        process = subprocess.Popen(command, stdin=subprocess.DEVNULL, env=environment)
        self.addCleanup(process.wait)
        self.addCleanup(process.kill)
        (self.room / "run" / "workers" / name).write_text(f"{process.pid}\n")
        return process


class StopTest(Stopped):
    def test_the_master_is_killed_in_it(self) -> None:
        for word in STOPS:
            with self.subTest(word):
                asked, heard = self.held(word)
                self.killed("supervise")
                self.ends()
                asked.join(SECONDS)
                self.assertEqual((heard, self.starts()), ([FINISHED], 1))
                self.assertIn(f"prefork-serve: {word}: {ALONE}; ", self.said.read_text())
                self.assertIn(f"{word}: lost, the master has ended", (self.room / "run" / "journal").read_text())
                self.again()

    def test_by_a_signal(self) -> None:
        (self.blocks / "hangs").write_text("TERM")
        self.serve.send_signal(signal.SIGTERM)
        self.assertTrue(until(lambda: (self.blocks / "is_held").exists(), SECONDS))
        self.killed("supervise")
        self.ends()

    def test_another_word_is_cut_before_it(self) -> None:
        cut, of_cut = self.held("USR1")
        asked, heard = self.asks("QUIT")
        self.assertTrue(until(lambda: '"waiting": 1' in self.asked("status brief"), SECONDS))
        self.killed("supervise")
        self.ends()
        for thread in (cut, asked):
            thread.join(SECONDS)
        self.assertEqual((of_cut, heard, self.starts()), (["lost: the master has ended\n"], [FINISHED], 1))

    def test_no_master_can_be_started(self) -> None:
        """A stop that comes while the next one fails to start again and again."""
        for fault in ("no program", "ends at once"):
            with self.subTest(fault):
                if fault == "no program":
                    (self.faults / "always").touch()
                    (self.faults / "raise").write_text("commands.Commands.begin")
                else:
                    (self.blocks / "dies").touch()
                self.killed("supervise")
                self.assertTrue(until(lambda: "is started again" in self.said.read_text(), SECONDS))
                time.sleep(2)
                self.assertIsNone(self.serve.poll())
                asked, heard = self.asks("QUIT")
                self.ends()
                asked.join(SECONDS)
                self.assertEqual(heard, [FINISHED])
                self.again()

    def test_a_stop_with_another_report_ends_the_service_too(self) -> None:
        for report in ("lost cause 1 pid no-file", "refused V1", "degraded old 1 cause 1 pid no-file"):
            with self.subTest(report):
                (self.blocks / "QUIT").write_text(f"{report}\n")
                self.assertEqual(self.asked("QUIT"), f"word QUIT\n{report}\n")
                self.ends()
                self.assertEqual(self.starts(), 1)
                self.again()

    def test_workers_finish_first(self) -> None:
        asked, heard = self.held("QUIT")
        worker = self.worker("1.1.0", 1.5)
        began = time.monotonic()
        self.killed("supervise")
        self.ends()
        asked.join(SECONDS)
        self.assertEqual((worker.wait(0), heard), (0, [FINISHED]))
        self.assertGreater(time.monotonic() - began, 0.5)

    def test_int_and_term_kill_them_at_once(self) -> None:
        for word in ("INT", "TERM", "QUIT, and then TERM"):
            with self.subTest(word):
                asked, _ = self.held(word.partition(",")[0])
                worker = self.worker("1.1.0", 1000)
                began = time.monotonic()
                self.killed("supervise")
                if "," in word:
                    self.serve.send_signal(signal.SIGTERM)
                self.ends()
                asked.join(SECONDS)
                self.assertEqual(worker.wait(SECONDS), -signal.SIGKILL)
                self.assertLess(time.monotonic() - began, 30)
                self.again()

    def test_the_keeper_or_prefork_watch_ends_or_hangs_in_it(self) -> None:
        for name in ("prefork-keeper", "prefork-watch"):
            for number in (signal.SIGKILL, signal.SIGSTOP):
                with self.subTest(f"{name} {number.name}"):
                    asked, heard = self.held("QUIT")
                    self.killed(name, number)
                    (self.blocks / "hangs").unlink()
                    self.ends()
                    asked.join(SECONDS)
                    self.assertIn("\ndone ", heard[0])
                    self.again()

    def test_whatever_raises_in_it(self) -> None:
        for name in CALLED:
            with self.subTest(name):
                (self.faults / "raise").write_text(name)
                self.serve.send_signal(signal.SIGQUIT)
                self.ends_once()

    def test_whatever_raises_once_its_master_has_ended(self) -> None:
        for name in CALLED_ALONE:
            with self.subTest(name):
                self.held("QUIT")
                (self.faults / "raise").write_text(name)
                self.killed("supervise")
                self.ends_once()

    def ends_once(self) -> None:
        """The service ends, though something has raised, and has started no other master."""
        self.assertEqual(self.serve.wait(SECONDS), 0, self.said.read_text()[-4000:])
        self.assertFalse((self.faults / "raise").exists())
        self.assertEqual(self.starts(), 1)
        self.again()


class LimitedStopTest(Stopped):
    """One whose workers have little time."""

    options = ["--answer-within", "15", "--ready-within", "2", "--finish", "2"]

    def test_workers_that_take_too_long_are_killed(self) -> None:
        asked, heard = self.held("QUIT")
        worker = self.worker("1.1.0", 1000)
        self.killed("supervise")
        self.ends()
        asked.join(SECONDS)
        self.assertEqual((worker.wait(SECONDS), heard), (-signal.SIGKILL, [f"lost: {ALONE}; 1 worker was killed\n"]))


if __name__ == "__main__":
    unittest.main()

"""Each handler and each duty of prefork-serve raises in turn, and the service serves on."""
import json
import os
import pathlib
import signal
import socket
import subprocess
import tempfile
import unittest
from collections.abc import Callable
from typing import Any

from kit import PROGRAMS, PYTHON, answer_of, built, free_address, until

SECONDS = 120
# What raises, by what is done to have it called.
CALLS = {
    "status": ["door.Door.admit", "door.Door.give", "asking.Asking.hear_asker", "asking.Asking.take_text",
               "asking.Asking.hand_over", "feed.Feed.hand_over", "feed.Feed.is_behind"],
    "brief": ["summary.Summary.brief"],
    "signal": ["asking.Asking.hear_signals", "asking.Asking.take_signal", "service.Service.take", "words.Queue.take",
               "words.Queue.next"],
    "word": ["service.Service.tell_next", "service.Service.read_again", "service.Service.take_reading", "service.Service.goes_over", "service.Service.hear_master",
             "service.Service.end_word", "service.Service.settle", "service.Service.explain", "service.Service.conclude",
             "feed.Feed.tell_word", "feed.Feed.tell", "feed.Feed.put", "feed.Feed.flush", "feed.Feed.put_state", "feed.Feed.take",
             "service.Service.begin_word", "commands.Commands.change", "commands.Commands.settle", "commands.Commands.keep_now",
             "commands.Commands.accept", "commands.Commands.forget_others", "chronicle.Chronicle.begin_word",
             "chronicle.Chronicle.end_word", "records.Records.add", "records.Records.write", "keeping.KeeperProcess.settle",
             "leaving.Leaving.note", "patience.Hanging.begin", "telling.Telling.begin_word", "telling.Telling.end_word", "master.Master.tell",
             "master.Master.hear", "reading.ReaderProcess.begin", "reading.ReaderProcess.hear", "reading.ReaderProcess.finish", "reading.ReaderProcess.end"],
    "rest": ["service.Service.pause", "service.Service.hurry", "service.Service.end_late", "door.Door.tend", "door.Door.seconds",
             "keeping.KeeperProcess.hear", "keeping.KeeperProcess.tend", "keeping.KeeperProcess.tell", "chronicle.Chronicle.tend",
             "records.Records.tend", "telling.Telling.tend", "ticks.Ticks.is_due", "ticks.Ticks.tell", "leaving.Leaving.tend",
             "reading.ReaderProcess.tend",
             "summary.Summary.state", "summary.Summary.addresses", "watching.Watching.look", "patience.Hanging.tend", "feed.Feed.tend",
             "feed.Feed.tell_state", "feed.Feed.hear"],
    "watch": ["feed.Feed.bury", "feed.Feed.begin", "feed.Feed.tell_again", "feed.Feed.close"],
    "master": ["service.Service.end_master", "service.Service.begin_master", "service.Service.take_master",
               "master.Master.close", "commands.Commands.begin", "chronicle.Chronicle.begin_master",
               "records.Records.begin", "records.Records.forget_old",
               "leaving.Leaving.take_all"],
    "cut": ["chronicle.Chronicle.cut_word"],
    "errors": ["service.Service.hear_errors", "master.Master.hear_errors"],
    "keeper": ["keeping.KeeperProcess.bury", "keeping.KeeperProcess.begin"],
}


class FaultyTest(unittest.TestCase):
    """A service over a master that answers each word and starts nothing, in which calls may raise."""

    # More options of prefork-serve, and of its environment.
    options: list[str] = []
    more: dict[str, str] = {}

    @classmethod
    def setUpClass(cls) -> None:
        built()

    def setUp(self) -> None:
        room = tempfile.TemporaryDirectory(prefix="faults-")
        self.addCleanup(room.cleanup)
        self.room = pathlib.Path(room.name)
        self.faults, self.blocks, self.said = self.room / "faults", self.room / "blocks", self.room / "said"
        self.faults.mkdir()
        self.blocks.mkdir()
        (self.blocks / "errors").write_text("[INFO  prefork] said\n")
        self.address, self.page = free_address(), free_address()
        self.configure(2)
        environment = {**os.environ, "BLOCKS": str(self.blocks), "FAULTS": str(self.faults), **self.more}
        options = ["--prefork", PROGRAMS / "master.py", "--page", self.page, *self.options]
        command = [PYTHON, PROGRAMS / "faulty.py", *options, "site.toml"]
        with open(self.said, "a") as said:
            self.serve: Any = subprocess.Popen(command, cwd=self.room, env=environment, stderr=said)
        self.addCleanup(self.end)
        self.assertTrue(until(self.serves, SECONDS), self.said.read_text())

    def end(self) -> None:
        self.serve.kill()
        self.serve.wait(SECONDS)

    def configure(self, workers: int) -> None:
        text = f'listeners = ["{self.address}"]\nworkers = {workers}\ncommand = ["true"]\n'
        (self.room / "site.toml").write_text(text)

    def asked(self, word: str) -> str:
        """What the service answers; nothing if it does not."""
        try:
            with socket.socket(socket.AF_UNIX) as asker:
                asker.settimeout(SECONDS)
                asker.connect(str(self.room / "run" / "ctl.sock"))
                asker.sendall(f"{word}\n".encode())
                with asker.makefile() as answer:
                    return answer.read()
        except (ConnectionError, FileNotFoundError):
            return ""

    def children(self, name: str) -> list[int]:
        """The processes of prefork-serve whose command line has a word."""
        found = []
        for text in pathlib.Path(f"/proc/{self.serve.pid}/task/{self.serve.pid}/children").read_text().split():
            try:
                line = pathlib.Path(f"/proc/{text}/cmdline").read_text()
            except OSError:
                continue
            found += [int(text)] if name in line else []
        return found

    def killed(self, name: str, number: int = signal.SIGKILL) -> None:
        """Signals the processes of this name, once there are some: one that has ended may be started again later."""
        self.assertTrue(until(lambda: bool(self.children(name)), SECONDS), name)
        for process in self.children(name):
            os.kill(process, number)

    def serves(self) -> bool:
        return self.serve.poll() is None and "\ndone " in self.asked("HUP") and self.asked("status").startswith("{")


class FaultsTest(FaultyTest):
    def ways(self) -> dict[str, Callable[[], Any]]:
        return {
            "status": self.ask_status, "word": lambda: self.asked("HUP"), "rest": lambda: None,
            "errors": lambda: ((self.blocks / "USR1").write_text("done\n"), self.asked("USR1")),
            "signal": lambda: self.serve.send_signal(signal.SIGTTIN), "brief": lambda: self.asked("status brief"),
            "watch": lambda: self.killed("prefork-watch"),
            "master": lambda: self.killed("supervise"), "keeper": lambda: self.killed("prefork-keeper"),
            "cut": self.cut,
        }

    def cut(self) -> None:
        """The master is killed in the middle of a word."""
        self.killed("supervise", signal.SIGSTOP)
        self.serve.send_signal(signal.SIGUSR1)

        def owes() -> bool:
            status = json.loads(self.asked("status"))
            return status["doing"] == "USR1" or status["waiting"] == 1

        self.assertTrue(until(owes, SECONDS))
        self.killed("supervise")

    def ask_status(self) -> None:
        """Asks until the call has raised: what was found out a moment ago is told again."""
        until(lambda: self.asked("status") == "?" or not (self.faults / "raise").exists(), SECONDS)

    def has_raised(self, name: str) -> bool:
        """Waits until a call has raised, and that was told."""
        return until(lambda: f"injected in {name}\n" in self.said.read_text(), SECONDS)

    def test_each_call_raises_once(self) -> None:
        for way, names in CALLS.items():
            for name in names:
                with self.subTest(name):
                    (self.faults / "raise").write_text(name)
                    self.ways()[way]()
                    self.assertTrue(self.has_raised(name), self.said.read_text())
                    self.assertTrue(until(self.serves, SECONDS), self.said.read_text()[-4000:])
        self.assertIn('"workers": [{', self.asked("status"))
        # No handler is left out.
        heard = set((self.faults / "handlers").read_text().split("\n")) - {""}
        self.assertEqual(heard - {name for names in CALLS.values() for name in names}, set())
        self.serve.send_signal(signal.SIGQUIT)
        self.assertEqual(self.serve.wait(SECONDS), 0, self.said.read_text()[-4000:])

    def test_a_configuration_that_was_taken_runs_though_its_file_is_not_written(self) -> None:
        self.configure(7)
        (self.faults / "raise").write_text("commands.Commands.keep_now")
        self.assertIn("\ndone ", self.asked("HUP"))
        self.assertTrue(self.has_raised("commands.Commands.keep_now"))
        self.killed("supervise")
        config = self.room / "run" / "config.toml"
        self.assertTrue(until(lambda: '"workers" = 7' in config.read_text(), SECONDS))

    def test_prefork_watch_whose_signs_raise_again_and_again_is_replaced(self) -> None:
        first = self.children("prefork-watch")
        (self.faults / "always").touch()
        (self.faults / "raise").write_text("feed.Feed.hear")
        self.assertTrue(until(lambda: "hear has failed 5 times" in self.said.read_text(), SECONDS))
        (self.faults / "raise").unlink()
        self.assertTrue(until(lambda: self.children("prefork-watch") not in ([], first), SECONDS))
        self.assertTrue(until(lambda: "prefork_workers" in self.visit(), SECONDS), self.said.read_text()[-4000:])

    def visit(self) -> str:
        try:
            return answer_of(self.page, "/metrics", SECONDS)
        except OSError:
            return ""

    def test_a_master_whose_words_raise_again_and_again_is_replaced(self) -> None:
        first = self.children("supervise")
        (self.faults / "always").touch()
        (self.faults / "raise").write_text("service.Service.hear_master")
        self.assertTrue(until(lambda: "hear_master has failed 5 times" in self.said.read_text(), SECONDS))
        (self.faults / "raise").unlink()
        self.assertTrue(until(lambda: self.children("supervise") not in ([], first), SECONDS))
        self.assertTrue(until(self.serves, SECONDS), self.said.read_text()[-4000:])

    def test_a_loop_that_hears_nothing_any_more_leaves_everything(self) -> None:
        keeper = self.children("prefork-keeper")
        (self.faults / "always").touch()
        (self.faults / "raise").write_text("select")
        self.assertEqual(self.serve.wait(SECONDS), 1)
        self.assertIn("it ends, and leaves everything as it is", self.said.read_text())
        self.assertTrue((self.room / "run" / "accepted.toml").exists())
        self.assertTrue(until(lambda: not any(pathlib.Path(f"/proc/{one}").exists() for one in keeper), SECONDS))


if __name__ == "__main__":
    unittest.main()

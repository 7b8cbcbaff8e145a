"""prefork-watch ends, hangs or lags, and prefork-serve serves on."""
import json
import os
import pathlib
import selectors
import signal
import socket
import tempfile
import time
import unittest
from typing import Any
from unittest import mock

from kit import answer_of, built, clock_ahead, free_address, until
from prefork_service import feed
from prefork_service.feed import MOST_TELLINGS, Feed
from prefork_service.state import whole_of
from test_whole import BACK

SECONDS = 60
STATE = {
    "addresses": ["127.0.0.1:1"], "held": {}, "lost_paths": [], "generation": "1.1", "workers": [0, 1], "beats": {},
    "master": None, "master_restarts": 0, "keeper": {"process": 1, "restarts": 0}, "counts": [], "ticks": 1, "tick_outcomes": {},
    "doing": None, "question": 0, "asked": 0.0, "waiting": 0, "accepted": "", "records_waiting": 0,
    "whole": whole_of(None, True, 2, 2, "").as_json(), "failing": [], "failed_starts": 0, "hooks": {},
}
WORD: dict[str, Any] = {
    "word": "HUP", "began": "2026-11-30T13:21:07+00:00", "seconds": 0.5, "block": f"word HUP\n{BACK}", "noted": {"1.2.0": "it is broken"},
    "errors": {}, "is_noted": True, "refusals": [], "mistakes": [], "refused": "", "is_forked": False, "wanted": 2,
    "of_file": [],
}


class FeedTest(unittest.TestCase):
    """What prefork-serve tells a prefork-watch of its own."""

    def setUp(self) -> None:
        built()
        room = tempfile.TemporaryDirectory()
        self.addCleanup(room.cleanup)
        self.room, self.page = pathlib.Path(room.name), free_address()
        (self.room / "workers").mkdir()
        hook = self.room / "hook"
        hook.write_text(f"#!/bin/sh\necho told >>{self.room}/told\n")
        hook.chmod(0o755)
        hello = {
            "process": os.getpid(), "began": time.monotonic(), "folder": str(self.room), "file": str(self.room / "site.toml"),
            "prefork": "/nowhere", "records": str(self.room), "journal": str(self.room / "journal"), "metrics": None, "page": self.page,
            "hosts": [], "hooks": {"on-rolled-back": str(hook)}, "default": None, "is_preloaded": False, "ready_seconds": 30.0,
        }
        self.said: list[str] = []
        self.state = dict(STATE)
        self.events, self.told = selectors.DefaultSelector(), list[str]()
        self.addCleanup(self.events.close)
        self.state["hooks"] = hello["hooks"]
        self.feed = Feed(self.events, hello, lambda: dict(self.state), self.told.append)
        self.addCleanup(self.feed.end)
        self.feed.tend()

    def turn(self) -> None:
        for key, _ in self.events.select(0.02):
            key.data(key.fileobj)
        self.feed.tend()

    def comes(self, holds: Any) -> bool:
        return until(lambda: (self.turn(), holds())[1], SECONDS)

    def has_taken(self) -> bool:
        return self.feed.process is not None and not self.feed.unsent and self.feed.taken >= self.feed.number

    def ask(self, text: str, number: int = 0) -> socket.socket:
        ours, theirs = socket.socketpair()
        self.addCleanup(ours.close)
        ours.settimeout(SECONDS)
        self.assertTrue(self.feed.hand_over([theirs], text, number))
        theirs.close()
        return ours

    def heard(self, asker: socket.socket) -> str:
        with asker.makefile() as answer:
            return answer.read()

    def killed(self) -> None:
        """Kills it, and waits for the next one."""
        first = self.feed.process
        assert first
        first.kill()
        self.assertTrue(self.comes(lambda: self.feed.process not in (None, first)))

    def test_it_tells_the_status_and_why_a_word_has_failed(self) -> None:
        number = self.feed.tell_word(WORD, True)
        notes = self.heard(self.ask(feed.NOTES, number))
        self.assertIn("note 2 m1 await-ready 1.2 0 : gone: it is broken\n", notes)
        self.assertIn("note runs now: 2 workers of generation 1.1 at 127.0.0.1:1\n", notes)
        status = json.loads(self.heard(self.ask("status")))
        self.assertEqual((status["last"]["cause"], status["state"]), ("2 m1 await-ready 1.2 0 : gone", "serves"))
        self.assertIn("HUP: 2 m1 await-ready 1.2 0 : gone: it is broken\n", (self.room / "journal").read_text())
        self.assertTrue(self.comes(lambda: any("last word HUP: rolled-back" in line for line in self.told)))
        self.assertTrue(self.comes((self.room / "told").exists))

    def test_one_that_is_killed_is_started_again_and_told_again(self) -> None:
        self.feed.tell_word(WORD, True)
        self.assertTrue(self.comes(lambda: self.has_taken() and (self.room / "told").exists()))
        self.killed()
        status = json.loads(self.heard(self.ask("status")))
        self.assertEqual((status["last"]["word"], status["watch"]["restarts"]), ("HUP", 1))
        self.assertTrue(self.comes(self.has_taken))
        # What was told once is not told again to programs and in the journal.
        self.assertEqual((self.room / "told").read_text(), "told\n")
        self.assertEqual((self.room / "journal").read_text().count("it is broken"), 1)
        self.assertTrue(until(lambda: "rolled-back" in self.page_text(), SECONDS))

    def page_text(self) -> str:
        try:
            return answer_of(self.page, "/", SECONDS)
        except OSError:
            return ""

    def test_what_one_that_was_stopped_has_not_taken_is_told_the_next_one(self) -> None:
        self.assertTrue(self.comes(self.has_taken))
        process = self.feed.process
        assert process
        os.kill(process.pid, signal.SIGSTOP)
        self.feed.tell_word(WORD, True)
        with mock.patch.object(feed, "time", clock_ahead(feed.BEHIND_SECONDS + 1)):
            self.assertTrue(self.feed.is_behind())
        with mock.patch.object(feed, "time", clock_ahead(feed.WATCH_HANG_SECONDS + 1)):
            self.feed.tend()
            self.assertIsNone(self.feed.process)
        self.assertTrue(self.comes(lambda: self.feed.process is not None))
        self.assertEqual(json.loads(self.heard(self.ask("status")))["last"]["word"], "HUP")
        self.assertTrue(until((self.room / "told").exists, SECONDS))

    def test_an_event_that_ends_it_again_and_again_is_dropped(self) -> None:
        self.assertTrue(self.comes(self.has_taken))
        self.feed.process and os.kill(self.feed.process.pid, signal.SIGSTOP)
        self.feed.tell_word(WORD, True)
        for tries in range(1, MOST_TELLINGS + 1):
            process = self.feed.process
            assert process
            os.kill(process.pid, signal.SIGSTOP)
            self.assertEqual((self.feed.dropped, self.feed.queue[0].tries), (0, tries))
            process.kill()
            self.assertTrue(self.comes(lambda: self.feed.process not in (None, process)))
        self.assertEqual((self.feed.dropped, len(self.feed.queue), len(self.feed.words)), (1, 0, 0))
        self.assertEqual(json.loads(self.heard(self.ask("status")))["watch"]["dropped"], 1)

    def test_what_has_no_room_is_dropped_and_counted(self) -> None:
        self.assertTrue(self.comes(self.has_taken))
        process = self.feed.process
        assert process
        os.kill(process.pid, signal.SIGSTOP)
        big = {**WORD, "block": f"word HUP\n{'x' * 1_000_000}\n{BACK}"}
        for _ in range(10):
            self.feed.tell("word", big)
        self.assertGreater(self.feed.dropped, 4)
        self.assertLess(len(self.feed.unsent), feed.MOST_WAITING_BYTES + 2_000_000)
        process.kill()

    def test_the_pause_before_a_start_doubles(self) -> None:
        pauses = []
        for _ in range(4):
            self.feed.bury()
            pauses.append(self.feed.pause)
        self.assertEqual(pauses, [0.5, 1.0, 2.0, 4.0])

    def test_an_asker_that_reads_nothing_delays_nobody(self) -> None:
        self.state["lost_paths"] = ["x" * 400_000]
        silent = [self.ask("status") for _ in range(40)]
        self.assertTrue(self.comes(self.has_taken))
        begun = [self.ask("status") for _ in range(20)]
        for asker in begun:
            self.assertEqual(json.loads(self.heard(asker))["state"], "serves")
        self.assertEqual(len(silent), 40)


if __name__ == "__main__":
    unittest.main()

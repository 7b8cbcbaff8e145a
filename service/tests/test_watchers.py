"""What many that watch a service cost, and that all of them are told the same of the present word."""
import html
import os
import pathlib
import selectors
import tempfile
import time
import unittest
from typing import Any
from unittest import mock

from kit import free_address
from prefork_service import remembering, view
from prefork_service.barrier import Barrier
from prefork_service.folder import say
from prefork_service.metrics import PROGRESS, metrics_of
from prefork_service.picture import Picture
from prefork_service.showing import PAGE_SECONDS, Showing
from prefork_service.status import shown
from test_watch import STATE

WATCHERS, SECONDS = 20, 10
# A reload: two old workers run, and two new ones of at most three.
RUNNING = {("1.1", 0): os.getpid(), ("1.1", 1): os.getppid(), ("1.2", 0): os.getpid(), ("1.2", 1): os.getppid()}


class Clock:
    """A clock that goes on when it is told to."""

    def __init__(self) -> None:
        self.moment = time.monotonic()

    def monotonic(self) -> float:
        return self.moment


class WatchersTest(unittest.TestCase):
    def setUp(self) -> None:
        room = tempfile.TemporaryDirectory()
        self.addCleanup(room.cleanup)
        place = pathlib.Path(room.name)
        (place / "workers").mkdir()
        config = place / "site.toml"
        config.write_text('workers = 3\nlisteners = ["127.0.0.1:1"]\n')
        hello = {
            "process": os.getpid(), "began": time.monotonic(), "folder": str(place), "file": str(config), "prefork": "/nowhere",
            "records": str(place), "metrics": None, "page": free_address(), "hosts": [], "restarts": 0,
        }
        self.picture, self.clock, events = Picture(hello), Clock(), selectors.DefaultSelector()
        self.addCleanup(events.close)
        self.addCleanup(self.picture.end)
        self.picture.state = {
            **STATE, "doing": "HUP", "word_began": time.monotonic() - 3, "dropped": 0, "restarts": 0, "calls": ["word HUP"],
            "accepted": config.read_text(),
        }
        running = mock.patch.multiple(
            self.picture.files, running=lambda: RUNNING, since=lambda: dict.fromkeys(RUNNING.values(), 0.0), launched=lambda: set(RUNNING.values()),
        )
        running.start()
        self.addCleanup(running.stop)
        self.showing = Showing(events, self.picture, Barrier(say))
        self.addCleanup(self.showing.end)

    def made(self, watchers: int) -> tuple[int, int]:
        """How often the status is found out, and the page is drawn, while a number of pages are open for some seconds."""
        looked, drawn = mock.Mock(side_effect=self.picture.looked), mock.Mock(side_effect=view.event_of)
        self.picture.remembered = remembering.Remembered()
        self.showing.told = {}, None, ""
        with mock.patch.object(self.picture, "looked", looked), mock.patch.object(view, "event_of", drawn), \
                mock.patch.object(remembering, "time", self.clock):
            for _ in range(SECONDS):
                # Each page asks once a second, wherever in it.
                for _ in range(watchers):
                    self.clock.moment += 1 / watchers
                    self.showing.pages()["/live"]()
        return looked.call_count, drawn.call_count

    def test_the_status_is_found_out_and_drawn_once_for_all_pages_that_are_open(self) -> None:
        for watchers in (WATCHERS, 10 * WATCHERS):
            looked, drawn = self.made(watchers)
            self.assertEqual(looked, drawn)
            self.assertLessEqual(looked, 1 + SECONDS / PAGE_SECONDS)
        self.assertEqual(self.made(1), (SECONDS, SECONDS))

    def test_what_pages_at_a_moment_are_told_is_the_same(self) -> None:
        with mock.patch.object(remembering, "time", self.clock):
            told = {self.showing.pages()["/live"]()[1] for _ in range(WATCHERS)}
        self.assertEqual(len(told), 1)

    def test_all_tell_the_same_of_the_present_word(self) -> None:
        with mock.patch.object(remembering, "time", self.clock):
            status: dict[str, Any] = self.picture.status()
            far = status["progress"]
            self.assertEqual((far["word"], far["new"], far["old"], far["wanted"]), ("HUP", 2, 2, 3))
            line = f"HUP, for {far['seconds']} s: 2 of 3 new and 2 old workers run; new workers start, for {far['step_seconds']} s"
            self.assertEqual(far["line"], line)
            self.assertIn(line, shown(status))
            self.assertIn(html.escape(line), view.page_of(status, [], ""))
            # (systemd's)
            self.assertEqual(self.picture.line(), f"carries out {line}")
            numbers = dict(it.split(" ") for it in metrics_of(status).splitlines() if not it.startswith("#") and "{" not in it)
            self.assertEqual({name: float(numbers[name]) for name in PROGRESS}, {name: float(far[key]) for name, key in PROGRESS.items()})
            self.assertLessEqual({"seconds", "new", "old", "wanted", "step_seconds"}, set(PROGRESS.values()))


if __name__ == "__main__":
    unittest.main()

"""What prefork-serve tells by itself: systemd that it lives and is reloading, and people that the state of the whole is
another one. All else is told by prefork-watch."""
import time
from typing import TYPE_CHECKING

from .feed import Feed
from .folder import say
from .state import SERVES, Whole
from .systemd import Watchdog, notify

if TYPE_CHECKING:
    from .service import Service

# The pause of the loop while a state is about to be told.
NEWS_SECONDS = 0.25


class Telling:
    """Systemd, people and prefork-watch."""

    def __init__(self, service: "Service", feed: Feed):
        self.summary, self.chronicle, self.feed = service.summary, service.chronicle, feed
        self.watchdog, self.is_reloading = Watchdog(), False

    def begin_word(self, changes: bool) -> None:
        """A word begins; systemd is told of one that changes the service."""
        self.is_reloading = changes
        if changes:
            notify(f"RELOADING=1\nMONOTONIC_USEC={time.monotonic_ns() // 1000}")

    def end_word(self) -> None:
        if self.is_reloading:
            self.is_reloading = False
            notify("READY=1")

    def tend(self) -> None:
        self.watchdog.tend()
        if news := self.summary.news():
            self.tell_news(*news)
        self.feed.tend()

    def tell_news(self, whole: Whole, before: Whole | None) -> None:
        """Says another state of the whole to people."""
        runs_now = self.summary.runs_now()
        line = f"{SERVES}: {runs_now}" if whole.state == SERVES else whole.line
        say(line)
        self.chronicle.journal.note(line)
        self.feed.tell_state()
        self.feed.tell("news", {"whole": whole.as_json(), "before": before.state if before else "", "runs_now": runs_now})

    def seconds(self) -> float:
        """How long the loop may wait at most."""
        return min(self.watchdog.every, NEWS_SECONDS if self.summary.has_news() else self.watchdog.every)

"""What prefork-watch shows without being asked a word: pages, metrics, and programs that are told what happens."""
import json
import pathlib
import selectors
import time
from collections.abc import Callable
from typing import TYPE_CHECKING, Any

from . import metrics
from .barrier import Barrier
from .done import Done
from .forms import Status
from .hooks import OF_OUTCOMES, Hooks
from .metrics import MetricsFile, metrics_of
from .picture import Picture
from .sites import is_site
from .state import SHORT
from .web import Pages, Site

if TYPE_CHECKING:
    from .page import NextPlan

# How often the file of metrics is written, and how often it is tried to open an address. How old the status of a page may be
# that is open: it asks each second.
FILE_SECONDS, OPEN_SECONDS, PAGE_SECONDS = 10.0, 1.0, 0.9


class Showing:
    """Pages, metrics and hooks. The picture is what they show."""

    def __init__(self, events: selectors.BaseSelector, picture: Picture, barrier: Barrier):
        self.events, self.picture, self.barrier, self.status = events, picture, barrier, picture.status
        hello = picture.hello
        self.hooks = Hooks({})
        self.sites: list[Site] = []
        self.file: MetricsFile | None = None
        self.plan: "NextPlan | None" = None
        self.written, self.next_open = 0.0, 0.0
        # The event that pages were told last, with what it was made of.
        self.told: tuple[Status, object, str] = {}, None, ""
        numbers = {"/metrics": lambda: (metrics.METRICS_KIND, metrics_of(self.status()))}
        # The addresses that are not open yet, with what is shown there.
        self.wanted: dict[str, Pages] = {}
        if hello["metrics"] and is_site(hello["metrics"]):
            self.wanted[hello["metrics"]] = numbers
        elif hello["metrics"]:
            self.file = MetricsFile(pathlib.Path(hello["metrics"]).absolute())
        if hello["page"]:
            # (a service without a page does not take the memory of this)
            from .page import NextPlan as Plan
            self.plan = Plan()
            self.wanted[hello["page"]] = {**self.pages(), **numbers}

    def pages(self) -> Pages:
        """What the page's address shows: the page, what keeps it as the service is, and the status for programs."""
        from . import live, page, view
        return {
            "/": lambda: (page.KIND, view.page_of(*self.seen())),
            "/live": lambda: (live.EVENT_KIND, self.event()),
            "/live.js": lambda: (live.SCRIPT_KIND, live.SCRIPT),
            "/status.json": lambda: (live.JSON_KIND, json.dumps(self.status()) + "\n"),
        }

    def seen(self, seconds: float = 0.0) -> tuple[Status, list[Done], str]:
        """What a page shows, which may be some seconds old."""
        return self.status(seconds), [*self.picture.words], self.plan.text if self.plan else ""

    def event(self) -> str:
        """What pages that are open are told: all of them the same, as long as that is the same."""
        status, words, plan = self.seen(PAGE_SECONDS)
        last = words[-1] if words else None
        if status is not self.told[0] or (last, plan) != self.told[1]:
            from .view import event_of
            self.told = status, (last, plan), event_of(status, words, plan)
        return self.told[2]

    def open(self) -> None:
        """Opens the addresses that are not open. One that others have is tried again."""
        if not self.wanted or time.monotonic() < self.next_open:
            return
        self.next_open = time.monotonic() + OPEN_SECONDS
        for address, pages in [*self.wanted.items()]:
            try:
                self.sites.append(Site(self.events, address, pages, self.picture.hello["hosts"]))
                del self.wanted[address]
            except OSError as fault:
                self.barrier.once(f"{fault}, and is tried again")

    def tell(self, event: str, told: dict[str, Any]) -> None:
        """Tells the program of an event, by the configuration that runs."""
        self.hooks.programs = self.picture.state["hooks"]
        self.hooks.tell(event, {"folder": self.picture.hello["folder"], **told})

    def tell_word(self, done: Done | None) -> None:
        """Tells programs and the file of metrics of a word that has ended."""
        if done:
            told = {**done.as_json(), "lines": done.block.splitlines()}
            self.tell(OF_OUTCOMES.get(done.report.split()[0], ""), told)
        self.write()

    def tell_state(self, told: dict[str, Any]) -> None:
        """Tells programs of another state of the whole."""
        whole, before = told["whole"], told["before"]
        is_healed = before == SHORT and whole["state"] != SHORT
        event = "on-short" if whole["state"] == SHORT else "on-healed" if is_healed else ""
        more = {"failing": self.picture.brief()["failing"], "runs_now": told["runs_now"]}
        self.tell(event, {**whole, **more})

    def tend(self) -> None:
        tends: list[Callable[..., Any]] = [self.open, self.hooks.tend, self.picture.traffic.tend, *(site.tend for site in self.sites)]
        tends += [self.tend_plan] if self.plan else []
        tends += [self.write] if self.file and time.monotonic() - self.written > FILE_SECONDS else []
        for tend in tends:
            self.barrier.duty(tend)

    def tend_plan(self) -> None:
        if self.plan:
            self.plan.tend(self.picture.brief())

    def write(self) -> None:
        """Writes the file of metrics, if there is one."""
        if self.file:
            self.written = time.monotonic()
            self.file.write(metrics_of(self.status()))

    def end(self) -> None:
        ends: list[Callable[..., Any]] = [site.end for site in self.sites]
        ends += [self.file.end] if self.file else []
        ends += [self.plan.end] if self.plan else []
        ends.append(self.hooks.end)
        for end in ends:
            self.barrier.duty(end)

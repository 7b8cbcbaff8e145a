"""The page of a service in each of its states, as its program writes it, for pictures and looks."""
import json
import pathlib
import selectors
import sys
import threading
from collections.abc import Iterator
from typing import Any

from browser import looks, shots
from browser.chromium import BrowserFault, Page
from gate.addresses import free_address
from gate.tally import Tally

SERVICE = pathlib.Path(__file__).resolve().parent.parent.parent / "service"
sys.path.insert(0, str(SERVICE))

from prefork_service import live, page, view
from prefork_service.done import Done
from prefork_service.progress import Progress, Running
from prefork_service.web import Site

Status = dict[str, Any]
BEGAN = "2026-11-30T13:21:07+00:00"
RELOAD = ("word HUP", "1 m1 open 0.0.0.0:9090 : opened 4", "2 m1 fork 1.3 0 : forked", "3 m1 fork 1.3 1 : forked", "4 m1 fork 1.3 2 : forked",
          "5 m1 fork 1.3 3 : forked", "6 m1 await-ready 1.3 0 : ready", "7 m1 await-ready 1.3 1 : ready")
DONE = "\n".join((*RELOAD, "8 m1 census 1.3 : counted 0-3", "done cause none pid in-place", ""))
BACK = "\n".join((*RELOAD[:6], "6 m1 await-ready 1.3 0 : gone", "7 m1 quit 1.3 1 : ok", "8 m1 census 1.2 : counted 0-3", "rolled-back cause 6 pid in-place", ""))
TRACE = ["Traceback (most recent call last):", '  File "site.py", line 3, in <module>', "ZeroDivisionError: division by zero"]
PLAN = "plan steps 3 longest 3\n1 m1 fork 1.3 0 | forked 2 | again no-memory 3\n"


QUEUES = [{"address": "0.0.0.0:8080", "waiting": 3, "most": 128, "dropped": 0}]


def worker(generation: str, number: int, **more: Any) -> Status:
    return {"generation": generation, "number": number, "process": 4100 + number, "seconds": 7261, "last_beat_seconds": 1,
            "memory": 41_000_000, "processor_seconds": 7.5, **more}


def status(**more: Any) -> Status:
    """A service that serves, but for what differs."""
    return {
        "service": {"process": 4001, "seconds": 86400, "folder": "/run/prefork/shop"}, "addresses": ["0.0.0.0:8080"],
        "generation": "1.2", "workers": [worker("1.2", number) for number in range(4)], "others": [], "failing": [],
        "masters": [4002], "master_restarts": 0, "keeper": {"process": 4003, "restarts": 0}, "last": None, "doing": None,
        "question": 0, "question_seconds": 0, "waiting": 0, "counts": [], "file_has_changed": False, "records_waiting": 0,
        "state": "serves", "wanted": 4, "running": 4, "line": "serves: wanted 4, runs 4", "queues": QUEUES, **more,
    }


def done(word: str, block: str, reasons: list[str], errors: dict[str, list[str]] | None = None) -> Done:
    return Done(word, BEGAN, 2.41, block, reasons, errors or {})


RELOADED = done("HUP", DONE, [])
ENDED = done("WINCH", "word WINCH\n1 m1 quit 1.2 0 : ok\n2 m1 await-gone 1.2 0 : gone\ndone cause none pid in-place\n", [])
TAKEN_BACK = done("HUP", BACK, ["6 m1 await-ready 1.3 0 : gone: gunicorn ended with status 3"], {"1.3.0": TRACE})
FAILING = [{"worker": 0, "failed": 21, "reason": "gunicorn ended with status 3", "next_try_seconds": 12.0}]
NEW = [worker("1.3", number, state="is ready" if number < 2 else "starts", seconds=3) for number in range(4)]
UPGRADED = [worker("2.3", number, state="is ready", seconds=40) for number in range(4)]
RELOADS = Progress().of("HUP", 0.0, 3.0, Running(4, 4, 4, 2), 4)
ASKS = Progress().of("USR2 attended", 0.0, 95.0, Running(4, 4, 4, 4), 4, 1)
# Each state: the status, and the last words.
STATES: dict[str, tuple[Status, list[Done]]] = {
    "before": (status(), []),
    "during": (status(state="changes", line="changes: HUP", doing="HUP", others=NEW, progress=RELOADS), [RELOADED]),
    "after": (status(generation="1.3", workers=[worker("1.3", number) for number in range(4)]), [TAKEN_BACK, RELOADED]),
    "rolled-back": (status(file_has_changed=True), [RELOADED, TAKEN_BACK]),
    "short": (status(state="short", running=2, line="short: wanted 4, runs 2: worker 0 has failed 21 times, last: gunicorn ended with status 3",
                     workers=[worker("1.2", 1), worker("1.2", 2), worker("1.2", 3, process=None, seconds=None)], failing=FAILING), [TAKEN_BACK]),
    "question": (status(state="changes", line="changes: USR2 attended", doing="USR2 attended", question=1, question_seconds=95,
                        others=UPGRADED, masters=[4002, 4200], progress=ASKS), [RELOADED]),
    "stopped": (status(state="stopped", wanted=0, running=0, workers=[], line="stopped: no worker is wanted"), [RELOADED, ENDED]),
}


SAYS, COUNTS = "StaticText", "image"
OLD_ONES = (COUNTS, "generation 1.2: 4 ready")
WAS_TAKEN_BACK = (SAYS, "The reload at 13:21 was taken back: gunicorn ended with status 3. The version before serves.")
# What a screen reader finds of each, by role and text.
HEARD: dict[str, list[tuple[str, str]]] = {
    "before": [OLD_ONES, (SAYS, "None yet."), ("meter", "queue at 0.0.0.0:8080"), ("table", "workers")],
    "during": [OLD_ONES, (COUNTS, "generation 1.3: 2 ready, 2 starting"), (SAYS, "A reload is on its way."), ("heading", "HUP, on its way"),
               (SAYS, "hear them ready")],
    "after": [(COUNTS, "generation 1.3: 4 ready"), (SAYS, "The reload at 13:21 is done.")],
    "rolled-back": [OLD_ONES, WAS_TAKEN_BACK, WAS_TAKEN_BACK, (SAYS, "6 m1 await-ready 1.3 0 : gone: gunicorn ended with status 3"),
                    (SAYS, "ZeroDivisionError: division by zero")],
    "short": [(COUNTS, "generation 1.2: 2 ready, 1 ended, 1 missing"), (SAYS, "short: wanted 4, runs 2"), (SAYS, "has failed 21 times")],
    "question": [OLD_ONES, (COUNTS, "generation 2.3: 4 ready"), ("region", "question"), ("heading", "It asks whether to go on"),
                 (SAYS, "Question 1 of 2, for 95\u00a0s: old and new workers serve."), (SAYS, "prefork-ctl --folder /run/prefork/shop go"),
                 (SAYS, "prefork-ctl --folder /run/prefork/shop back")],
    "stopped": [(COUNTS, "generation 1.2: no worker"), (SAYS, "No worker runs."), (SAYS, "The end of all workers at 13:21 is done.")],
}


class Shown:
    """A server of the page, by the service's own code, that shows one state after another."""

    def __init__(self) -> None:
        self.name, self.is_over, self.address = "before", False, free_address()
        self.events = selectors.DefaultSelector()
        self.site = Site(self.events, self.address, {
            "/": lambda: (page.KIND, view.page_of(*self.seen())),
            "/live": lambda: (live.EVENT_KIND, view.event_of(*self.seen())),
            "/live.js": lambda: (live.SCRIPT_KIND, live.SCRIPT),
        })
        self.thread = threading.Thread(target=self.turn)

    def seen(self) -> tuple[Status, list[Done], str]:
        return *STATES[self.name], PLAN

    def turn(self) -> None:
        while not self.is_over:
            for key, _ in self.events.select(0.05):
                key.data(key.fileobj)
            self.site.tend()

    def __enter__(self) -> "Shown":
        self.thread.start()
        return self

    def __exit__(self, *_: Any) -> None:
        self.is_over = True
        self.thread.join()
        self.site.end()


# The name of the service, which each state has. It is marked; the plan is opened, and the keys are on its heading.
NAME = "shop"
MARKED = """(() => {
  const plan = document.getElementById('plan'), name = document.querySelector('h1').firstChild;
  plan.open = true;
  plan.querySelector('summary').focus();
  getSelection().setBaseAndExtent(name, 0, name, 4);
})()"""
# Whether an open page is what the service would write now, but for what is open.
SAME = """(() => {
  const now = document.querySelector('main'), next = document.createElement('main');
  next.innerHTML = %s;
  next.querySelector('#plan').open = now.querySelector('#plan').open;
  return next.isEqualNode(now);
})()"""


def spoken(seen: Page) -> list[str]:
    """The regions that a screen reader tells of by itself when they change."""
    return [looks.value_of(node, "name") for node in seen.tree() for it in node.get("properties", [])
            if it["name"] == "live" and it["value"].get("value") == "polite" and looks.value_of(node, "role") == "region"]


def live_faults(seen: Page, shown: Shown) -> Iterator[str]:
    """An open page follows the service by itself: each state is seen, and what is open, where the keys are and what is
    marked stays."""
    seen.go(f"http://{shown.address}/")
    seen.value(MARKED)
    if spoken(seen) != ["state"]:
        yield f"a screen reader tells by itself of {spoken(seen)}"
    for name, state in STATES.items():
        shown.name = name
        seen.becomes(SAME % json.dumps(view.middle_of(*state, PLAN)))
        yield from (f"{name}: {fault}" for fault in looks.faults(seen))
        if not seen.value("document.getElementById('plan').open"):
            yield f"{name}: what was open is closed"
        if not seen.value("document.activeElement === document.querySelector('#plan summary')"):
            yield f"{name}: the keys are no longer where they were"
        if seen.value("getSelection().toString()") != NAME:
            yield f"{name}: what was marked is no longer"
    others = [it for it in seen.requests if it.startswith("http") and not it.startswith(f"http://{shown.address}/")]
    yield from (f"the page asks for {it}" for it in others)


def heard(name: str) -> list[tuple[str, str]]:
    """What a screen reader finds of a state: the heading of the page, and what HEARD has."""
    found = STATES[name][0]
    return [("heading", f"{view.name_of(found)} {view.STATES[found['state']]}"), *HEARD[name]]


def lay_out(name: str, folder: pathlib.Path) -> pathlib.Path:
    """The page of a state, in a file."""
    found, words = STATES[name]
    file = folder / f"service-{name}.html"
    file.write_text(view.page_of(found, words, PLAN))
    return file


def tally_of(room: pathlib.Path, folder: pathlib.Path | None) -> Tally:
    """The checks of the page of a service. Pictures are written into a folder, if one is given."""
    found = Tally()
    try:
        with Page() as page, Shown() as shown:
            for fault in live_faults(page, shown):
                found.check([f"service, live: {fault}"])
            found.check([])
            for name in STATES:
                page.go(f"file://{lay_out(name, room)}")
                for width, scheme in shots.LOOKS:
                    page.size(width, shots.HEIGHT, scheme)
                    wrong = [*looks.faults(page), *looks.unheard(page, heard(name))]
                    found.check([f"service, {name}, {scheme}, {width}: {fault}" for fault in wrong])
                    if folder:
                        page.picture(folder / f"service-{name}-{scheme}-{width}.png")
    except BrowserFault as fault:
        found.check([f"service: {fault}"])
    return found

"""A service that is short, for each of six reasons: status, JSON, metrics, page, systemd and hooks tell the same, and that it
is over."""
import concurrent.futures
import html
import itertools
import json
import os
import pathlib
import re
import signal
import socket
import subprocess
import sys
import time
from collections.abc import Callable
from typing import Any

from gate.addresses import answer_of, free_address, place_of
from gate.tally import ROOT
from gate.waiting import SECONDS, Wrong, comes, until
from web.limit import Limit
from web.site import BIN, BROKEN, SERVICE, Scenario, Site, text_of
from web.systemd import Systemd

EVENTS = ("on-short", "on-healed")
PREFORK_STATE = 'prefork_state{state="%s"}'
HOOKS_OF = {"short": "on-short", "serves": "on-healed"}
HOOK = '#!/bin/sh\necho "$1" >>"$0.events"\ncat >"$0.$1.new" && mv "$0.$1.new" "$0.$1"\n'
# Goes into the application: what its start needs, and does not get while a file is there.
NEEDS = """
if sys.argv[1:] == ["child"] and os.path.exists({there!r}):
    {needs}
"""
BIND = "import socket; host, _, port = {address!r}.rpartition(':'); socket.socket().bind((host, int(port)))"
# How many connections wait, if the machine allows it, in a network of its own where that is needed.
CROWD, SOMAXCONN = 5000, pathlib.Path("/proc/sys/net/core/somaxconn")
# In how many minutes at most a full queue is empty again.
DRAINING = 4
OWN_NETWORK = ["unshare", "--net", "sh", "-c", f'ip link set lo up && echo {2 * CROWD} >{SOMAXCONN} && exec "$@"', "sh"]
# A crash loop: how many workers crash, for how many seconds of prefork-serve's own clock, and how much faster that goes
# than the system's. What is allowed in that time, and the starts that there are at least.
CRASHING, LOOP_SECONDS, FASTER = 4, 600, 10
MOST_STARTS, MOST_LINES, LEAST_STARTS = 60, 20, 15
# The word that the core of prefork-serve has, once it has begun.
CORE = "--core"
FAST_CLOCK = SERVICE / "tests" / "programs" / "fast_clock.c"
# An application that fails at its start, and notes each. What it says last is its reason.
CRASHES = "#!/bin/sh\necho >>{starts}\n{says}\nexit 7\n"
SAYS = {"the same reason": "echo no database >&2", "reasons of which no two are the same": "tr -dc a-z </dev/urandom | head -c 9 >&2"}
ALLOCATE = "import resource; resource.setrlimit(resource.RLIMIT_AS, (1 << 28, 1 << 28)); bytearray(1 << 30)"


class Views:
    """All that tells of a service."""

    def __init__(self, site: Site):
        self.site, self.page, self.hook = site, free_address(), site.room / "hook"
        self.hook.write_text(HOOK)
        self.hook.chmod(0o755)
        self.systemd = Systemd(site.room / "notify")
        site.environment["NOTIFY_SOCKET"] = str(self.systemd.path)
        site.options = ["--page", self.page, *(word for event in EVENTS for word in (f"--{event}", str(self.hook)))]

    def ctl(self, *words: str) -> str:
        command: list[Any] = [BIN / "prefork-ctl", "--folder", self.site.run, *words]
        return subprocess.run(command, capture_output=True, text=True, env=self.site.environment, timeout=SECONDS).stdout

    def told_to_systemd(self) -> str:
        said = [text.removeprefix("STATUS=") for text in self.systemd.said if text.startswith("STATUS=")]
        return str(said[-1]) if said else ""

    def told_to_hook(self, event: str) -> dict[str, Any]:
        file = pathlib.Path(f"{self.hook}.{event}")
        return dict(json.loads(file.read_text())) if file.exists() else {}

    def forget_hooks(self) -> None:
        for event in EVENTS:
            pathlib.Path(f"{self.hook}.{event}").unlink(missing_ok=True)

    def lines(self, state: str) -> dict[str, Callable[[], str]]:
        """What each place tells of the state: the line of all of them that have it, as it is there."""
        def of(told: dict[str, Any]) -> str:
            numbers = f"{told.get('state')}: wanted {told.get('wanted')}, runs {told.get('running')}"
            return str(told.get("line")) if str(told.get("line")).startswith(numbers) else f"{numbers}, and {told.get('line')}"

        def counted() -> str:
            found = dict(line.rsplit(" ", 1) for line in answer_of(self.page, "/metrics").splitlines())
            states = [name for name, value in found.items() if name.startswith("prefork_state{") and value == "1"]
            return f"{states} wanted {found['prefork_workers_wanted']}, runs {found['prefork_workers_running']}"
        return {
            "status": lambda: found_in(r"^state +(.*)$", self.ctl("status")),
            "json": lambda: of(json.loads(self.ctl("--json", "status") or "{}")),
            "status.json": lambda: of(json.loads(answer_of(self.page, "/status.json") or "{}")),
            "page": lambda: html.unescape(found_in(f'<p class="state {state}">(.*?)</p>', answer_of(self.page))),
            "metrics": counted, "systemd": self.told_to_systemd, "hook": lambda: of(self.told_to_hook(HOOKS_OF[state])),
        }

    def is_told(self, place: str, line: str, state: str, running: int, why: str) -> bool:
        """Whether a place tells this state of two workers that are wanted, and this reason."""
        numbers = f"wanted 2, runs {running}"
        if place == "metrics":
            return line == f"{[PREFORK_STATE % state]} {numbers}"
        if place == "systemd" and state != "short":
            return line.startswith(f"{running} workers of generation ")
        return line.startswith(f"{state}: {numbers}") and (state != "short" or why in line)

    def time_of(self, place: str, state: str, running: int, why: str, began: float) -> float:
        """After how many seconds a place tells of it. Raises Wrong."""
        said = ""

        def holds() -> bool:
            nonlocal said
            try:
                said = self.lines(state)[place]()
            except (OSError, ValueError, KeyError) as fault:
                said = f"nobody answers: {fault}"
            return self.is_told(place, said, state, running, why)
        if not comes(holds):
            raise Wrong(f"{place} tells of {state}: {said}")
        return time.monotonic() - began

    def differences(self, state: str, running: int, why: str) -> list[str]:
        """Where something else is told than this state of two workers that are wanted, and this reason."""
        told = {place: line() for place, line in self.lines(state).items()}
        wrong = [f"{place}: {line}" for place, line in told.items() if not self.is_told(place, line, state, running, why)]
        # How often it has failed changes while they are asked one after another; all else is the same text. systemd is told
        # the last word after it.
        own = {place: line for place, line in told.items() if place != "metrics" and (place != "systemd" or state == "short")}
        same = {re.sub(r"once|\d+ times", "N times", line).partition("; last word ")[0] for line in own.values()}
        return wrong + ([f"they differ: {same}"] if len(same) > 1 else [])

    def queue_is(self, waiting: int, most: int, wrong: list[str]) -> bool:
        """Whether all that tells of queues has this number of connections; what does not is put into a list."""
        address = self.site.first
        wanted = {"address": address, "waiting": waiting, "most": most, "dropped": 0}
        told, page = json.loads(answer_of(self.page, "/status.json") or "{}"), answer_of(self.page)
        metrics, text = answer_of(self.page, "/metrics").splitlines(), self.ctl("status")
        line = f"queue       {address}: {waiting} of at most {most} connections wait"
        looks = {
            "json": json.loads(self.ctl("--json", "status") or "{}").get("queues") == [wanted], "status.json": told.get("queues") == [wanted],
            "metrics": f'prefork_queue_length{{address="{address}"}} {waiting}' in metrics,
            "status": line in text, "page": f'value="{waiting}" aria-label="queue at {address}"' in page,
        }
        wrong[:] = [name for name, is_well in looks.items() if not is_well]
        return not wrong

    def agree(self, what: str, state: str, running: int, why: str, began: float) -> None:
        """Waits until each place tells this, and then all the same, and says after how many seconds each of them did."""
        found: list[str] = []

        def holds() -> bool:
            try:
                found[:] = self.differences(state, running, why)
            except (OSError, ValueError, KeyError) as fault:
                found[:] = [f"nobody answers: {fault}"]
            return not found
        places = list(self.lines(state))
        try:
            with concurrent.futures.ThreadPoolExecutor(len(places)) as pool:
                times = list(pool.map(lambda place: self.time_of(place, state, running, why, began), places))
            until(f"all tell of {what}", holds)
        except Exception:
            self.site.check(f"{what}: {found}; {self.ctl('status')}{self.told_to_systemd()}", False)
            raise
        told = ", ".join(f"{place} {seconds:.1f}" for place, seconds in zip(places, times))
        print(f"{self.site.name}: all tell of {what} after {max(times):.1f} s: {told}")

    def check_events(self, count: int) -> None:
        """Hooks were told this many times by turns that the service is short, and that it is not."""
        told = text_of(pathlib.Path(f"{self.hook}.events")).splitlines()
        kinds = [kind for kind, _ in itertools.groupby(told)]
        # (a shortfall is told again where its workers that fail are others)
        self.site.check(f"hooks are told {told}", kinds == list(EVENTS) * count and len(told) <= 3 * count)


def found_in(pattern: str, text: str) -> str:
    """What a pattern finds in a text; nothing if it is missing."""
    found = re.search(pattern, text, re.M)
    return found[1] if found else ""


def begun(site: Site) -> Views:
    """A service of two workers, without load, and all that tells of it."""
    views = Views(site)
    for file in ("from.toml", "to.toml", "site.toml"):
        site.configure(file)
    site.serve = site.started()
    return views


def short_from_its_start(site: Site) -> None:
    """An application that does not start ends the service with its reason; with --keep-trying it is short, and then serves."""
    site.configure()
    site.install(BROKEN.replace("exit 7", "echo no database >&2; exit 7"))
    site.serve = site.started()
    site.check("a start without a worker goes on", site.serve.wait(SECONDS) == 1)
    said = text_of(site.room / "said")
    reason = "prefork-serve: no worker has started: workers 0, 1 have failed "
    site.check(f"the reason is not said: {said}", reason in said and said.count(", last: no database\n") == 1)
    site.nothing_left()
    views = Views(site)
    site.options = [*site.options, "--keep-trying"]
    began = time.monotonic()
    site.serve = site.started()
    try:
        views.agree("a broken start", "short", 0, ", last: no database", began)
        began = time.monotonic()
        site.install(site.app_text)
        site.check("tick does not mend", views.ctl("tick").splitlines()[-1].startswith("done "))
        views.agree("the end of a broken start", "serves", 2, "", began)
        views.check_events(1)
        site.stop()
    finally:
        views.systemd.close()


def short_for_five_reasons(site: Site) -> None:
    """A worker that is killed is not replaced while its application is broken, its port is taken, it has no memory, the master
    may start no other process, or its program is gone."""
    there, address = str(site.room / "there"), free_address()
    app, limit = site.app_text, None
    views = begun(site)
    try:
        until("two workers", lambda: "serves: wanted 2, runs 2" in views.ctl("status"))
        fails(site, views, "a rollback", ", last: no database", lambda: roll_back(site), lambda: site.install(app))
        with socket.socket() as other:
            host, _, port = address.rpartition(":")
            other.bind((host, int(port)))
            other.listen()
            site.install(needing(app, there, BIND.format(address=address)))
            fails(site, views, "a port that is taken", "Address already in use", pathlib.Path(there).touch, pathlib.Path(there).unlink)
        site.install(needing(app, there, ALLOCATE))
        fails(site, views, "no memory", "MemoryError", pathlib.Path(there).touch, pathlib.Path(there).unlink)
        limit = Limit(site.master() or 0)
        print(f"{site.name}: the limit is {limit.kind}")
        fails(site, views, f"a limit of {limit.kind}", "fork: again", limit.set, limit.lift)
        fails(site, views, "a program that is gone", "No such file or directory", (site.home / "app").unlink, lambda: site.install(app))
        views.check_events(5)
        site.stop()
    finally:
        views.systemd.close()
        if limit:
            limit.remove()
    said = text_of(site.room / "said")
    lines = [line for line in said.splitlines() if line.startswith(("prefork-serve: short: ", "prefork-serve: serves: "))]
    kinds = [kind for kind, _ in itertools.groupby(line.split(": ")[1] for line in lines)]
    # (a shortfall is told again once it is known why)
    is_few = kinds == ["serves", "short"] * 5 + ["serves"] and len(lines) <= 16
    site.check(f"the states are told more than once: {lines}", is_few)
    site.certify()


def needing(app: str, there: str, needs: str) -> str:
    """The text of an application whose start needs something."""
    return app.replace("\n\ndef page(", NEEDS.format(there=there, needs=needs) + "\n\ndef page(", 1)


def roll_back(site: Site) -> None:
    """Installs an application that does not start, and has the reload rolled back."""
    site.install(BROKEN.replace("exit 7", "echo no database >&2; exit 7"))
    site.wants("HUP", 3, "rolled-back ", 2)


def fails(site: Site, views: Views, what: str, why: str, spoil: Callable[..., Any], mend: Callable[..., Any]) -> None:
    """Kills a worker whose start fails from now on, and mends it."""
    views.forget_hooks()
    spoil()
    began = time.monotonic()
    os.kill(min(site.workers()), signal.SIGKILL)
    views.agree(what, "short", 1, why, began)
    began = time.monotonic()
    mend()
    said = views.ctl("tick")
    site.check(f"{what}: tick does not mend: {said}", said.splitlines()[-1].startswith(("done ", "nothing")))
    views.agree(f"the end of {what}", "serves", 2, "", began)


def has_own_network() -> bool:
    """Whether a network of its own can be made here."""
    try:
        return not subprocess.run([*OWN_NETWORK, "true"], capture_output=True).returncode
    except OSError:
        return False


def a_crowd_waits(site: Site) -> None:
    """5,000 connections wait. Where the machine lets fewer wait, that is done in a network of its own; where none can be made,
    with as many as the machine allows."""
    most = int(SOMAXCONN.read_text())
    if most >= CROWD or not has_own_network():
        crowd_waits(site, min(CROWD, most), most)
        return
    command: list[Any] = [*OWN_NETWORK, sys.executable, ROOT / "ci" / "service", "--only", a_crowd_waits.__name__, site.certifier]
    found = subprocess.run(command, capture_output=True, text=True, timeout=10 * SECONDS)
    print(found.stdout, end="")
    is_seen = not found.returncode and f"{CROWD} of at most {2 * CROWD} connections wait" in found.stdout
    site.check(f"a crowd in a network of its own: {found.stdout[-1500:]}{found.stderr[-1500:]}", is_seen)


def crowd_waits(site: Site, count: int, most: int) -> None:
    """Status, JSON, page and metrics have the number of connections that wait, and that nobody waits once workers take
    them."""
    views = begun(site)
    clients: list[socket.socket] = []
    try:
        until("two workers", lambda: "serves: wanted 2, runs 2" in views.ctl("status"))
        # Nobody accepts.
        site.wants("WINCH", 0, "done ", 0)
        for _ in range(count):
            clients.append(socket.create_connection(place_of(site.first)))
        differences: list[str] = []
        is_seen = comes(lambda: views.queue_is(len(clients), most, differences))
        site.check(f"the crowd: {differences}", is_seen)
        print(f"{site.name}: {len(clients)} of at most {most} connections wait")
        while clients:
            clients.pop().close()
        site.wants("HUP", 0, "done ", 2)
        # Two workers accept and close as many as wait, beside the load.
        is_empty = comes(lambda: views.queue_is(0, most, differences), DRAINING * SECONDS)
        site.check(f"nobody: {differences}", is_empty)
        site.stop()
    finally:
        for client in clients:
            client.close()
        views.systemd.close()


def crashes(site: Site, says: str) -> None:
    """All workers of a service that serves are killed, and do not start again. After ten minutes of its own clock there were few
    starts and few lines, and once it is mended it serves."""
    library, starts = site.room / "fast_clock.so", site.room / "starts"
    subprocess.run(["cc", "-O2", "-shared", "-fPIC", "-o", library, FAST_CLOCK], check=True)
    clock = {"FAST_CLOCK": FASTER, "FAST_CLOCK_FROM": int(time.monotonic()), "FAST_CLOCK_OF": CORE, "LD_PRELOAD": library}
    site.before = ["env", *(f"{name}={value}" for name, value in clock.items())]
    # (what others take to answer is many of its seconds)
    site.options = ["--answer-within", str(60 * FASTER)]
    for file in ("from.toml", "to.toml", "site.toml"):
        site.configure(file, workers=CRASHING)
    site.serve = site.started()
    until("the workers", lambda: len(site.workers()) == CRASHING and "\ndone " in site.blocks())
    site.install(CRASHES.format(starts=starts, says=SAYS[says]))
    before = len(lines_of(site))
    for number in site.workers():
        site.kill(number)
    time.sleep(LOOP_SECONDS / FASTER)
    lines, count = lines_of(site)[before:], len(text_of(starts).splitlines())
    site.check(f"{says}: {count} starts", LEAST_STARTS < count <= MOST_STARTS)
    site.check(f"{says}: it says {lines}", 0 < len(lines) <= MOST_LINES)
    print(f"{site.name}: {count} starts and {len(lines)} lines in {LOOP_SECONDS} s of its clock")
    site.install(site.app_text)
    block, faults = site.sent("tick").communicate(timeout=SECONDS)
    site.check(f"{says}: tick does not mend: {block}{faults}", block.rstrip().rpartition("\n")[2].startswith("done "))
    site.check_workers("tick", CRASHING)
    site.stop()
    site.certify()


def lines_of(site: Site) -> list[str]:
    """What prefork-serve itself has said of the service. (prefork-watch has the system's clock: on a busy machine it is late by
    one that goes faster.)"""
    lines = [line for line in text_of(site.room / "said").splitlines() if line.startswith("prefork-serve: ")]
    return [line for line in lines if not line.startswith("prefork-serve: prefork-watch has ")]


def crash_loop_for_one_reason(site: Site) -> None:
    crashes(site, "the same reason")


def crash_loop_for_many_reasons(site: Site) -> None:
    crashes(site, "reasons of which no two are the same")


SCENARIOS: list[Scenario] = [short_from_its_start, short_for_five_reasons, a_crowd_waits, crash_loop_for_one_reason, crash_loop_for_many_reasons]

"""The death of masters and of the service itself, at each call of a plan, and at lines that a master says: nobody waits for it.

The application takes five seconds to load. At a call the master is halted where it begins that, and what dies is killed. At a
line this is done by the worker that hears it, before it does what the line asks. From then on no other worker loads until twenty
requests were answered: by workers that have survived their master.
"""
import concurrent.futures
import json
import os
import pathlib
import signal
from collections.abc import Callable, Iterable, Sequence
from typing import Any, NamedTuple

from gate.addresses import answer_of, free_address, is_refused, place_of
from gate.waiting import SECONDS, Wrong, until
from web.halting import Halt, Point
from web.records import certified
from web.site import LISTENS, Scenario, Site
from web.starts import status
from web.systemd import Systemd

# How long the application loads, and anything may take on a busy machine.
LOAD_SECONDS, ANSWERS, PATIENCE = 5.0, 20, 120.0
# Whose death: the master that the service has started, the new one of an upgrade, or prefork-serve, whose sockets are stored.
MASTER, NEW, SERVE = "master", "new_master", "serve"
WORDS = ("HUP", "USR2", "tick")
# The calls of each word with two workers. All that dies in a tick from its third call on dies in one that replaces a worker.
CALLS = {
    "HUP": ("fork", "fork", "await-ready", "await-ready", "census", "quit", "quit", "census", "report"),
    "USR2": (
        "spawn-master", "adopt", "census", "fork", "fork", "await-ready", "await-ready", "census", "quit", "quit",
        "await-gone", "await-gone", "alive", "census", "report",
    ),
    "tick": ("tick", "census", "fork", "await-ready", "census", "report"),
}
REPLACES = 3
# Those of a reload that drops an address and adds one: from which on a worker serves the added one, and none the dropped one.
TO_OTHERS = ("fork", "fork", "await-ready", "await-ready", "census", "quit", "quit", "close", "census", "report")
ADDED, CLOSED = 5, 9
# From which call of an upgrade on the old master has left, and there is no way back.
LEFT = 14
# With which line a word begins for workers.
BEGINS = {"HUP": "worker ", "USR2": "worker ", "tick": "tick "}
# Those of the gate are at lines, from that one on.
FEW = {
    MASTER: (("HUP", 4), ("HUP", 10), ("USR2", 8), ("tick", 1)), NEW: (("USR2", 4), ("USR2", 9), ("HUP", 8)),
    SERVE: (("HUP", 9), ("USR2", 7), ("tick", 2)),
}
# Goes into the application: a module beside it, and what calls that.
DYING = '''"""Kills a process at a line of a master, once that is wanted: the file `armed` says which, and at which line. Where
there is a file `retire`, one worker finishes by itself."""
import fcntl, json, os, pathlib, signal, threading, time

ROOM = pathlib.Path({room!r})
ARMED, KILLED, HOLD, RETIRE = ROOM / "armed", ROOM / "killed", ROOM / "hold", ROOM / "retire"


def words_of(process):
    try:
        return pathlib.Path(f"/proc/{{process}}/cmdline").read_bytes().split(b"\\0")
    except OSError:
        return []


def victim_of(armed):
    """The process that is to die, once there is one."""
    if armed["who"] != {new!r}:
        return armed["process"]
    # (between the first master and a new one is a relay)
    relays = adopting(armed["process"])
    return next((int(child) for relay in relays for child in adopting(relay)), None)


def adopting(process):
    children = pathlib.Path(f"/proc/{{process}}/task/{{process}}/children").read_text().split()
    return [int(child) for child in children if words_of(child)[1:2] == [b"adopt"]]


def runs(process):
    try:
        return pathlib.Path(f"/proc/{{process}}/stat").read_text().rpartition(")")[2].split()[0] != "Z"
    except OSError:
        return False


def take(file, line):
    """Counts a line, and kills at the one that is meant. The worker goes on once the other process has ended."""
    armed = json.load(file)
    armed["has_begun"] = armed["has_begun"] or line.startswith(armed["begins"])
    armed["at"] -= armed["has_begun"]
    victim = victim_of(armed) if armed["has_begun"] and armed["at"] <= 0 else None
    if victim is None:
        file.seek(0)
        file.truncate()
        json.dump(armed, file)
        return
    HOLD.touch()
    os.kill(victim, signal.SIGKILL)
    while runs(victim):
        time.sleep(0.001)
    KILLED.write_text(line)
    ARMED.unlink()


def hear(line):
    try:
        with open(ARMED, "r+") as file:
            fcntl.flock(file, fcntl.LOCK_EX)
            if ARMED.exists():
                file.seek(0)
                take(file, line)
    except FileNotFoundError:
        pass


def retire(server):
    try:
        RETIRE.unlink()
        threading.Thread(target=lambda: os._exit(server.finish() or 0), daemon=True).start()
    except FileNotFoundError:
        pass


def load():
    while HOLD.exists():
        time.sleep(0.02)
    time.sleep({seconds})
'''
HEARS = '''import dying
def heard(self, line, obeys=worker.Worker.obey):
    dying.hear(line)
    if line.startswith("tick "):
        dying.retire(self.server)
    return obeys(self, line)
worker.Worker.obey = heard
if sys.argv[1:] == ["child"]:
    dying.load()
'''


def lay_out(site: Site) -> None:
    """The application, which takes its time to load."""
    (site.home / "dying.py").write_text(DYING.format(room=str(site.room), new=NEW, seconds=LOAD_SECONDS))
    site.app_text = site.app_text.replace('VERSION = "', f'{HEARS}VERSION = "', 1)
    site.install(site.app_text)


# Where a death came, and the workers that there were before it.
Came = tuple[str, set[int]]


class AtLine(NamedTuple):
    """A death at the N-th line of a word that workers hear, or at a later one."""

    word: str
    at: int

    def arm(self, site: Site, who: str) -> Callable[[], Came]:
        """Lets it come; what waits for it."""
        process, workers = site.serve.pid if who == SERVE else site.master(), site.workers()
        armed = {"who": who, "process": process, "begins": BEGINS[self.word], "at": self.at, "has_begun": False}
        new, killed = site.room / "arming", site.room / "killed"
        new.write_text(json.dumps(armed))
        new.rename(site.room / "armed")

        def wait() -> Came:
            until(f"the death of the {who}", killed.exists, PATIENCE)
            line = killed.read_text().strip()
            killed.unlink()
            return f"{self.word}: {line}", workers

        return wait


class AtCall(NamedTuple):
    """A death where the master begins a call."""

    point: Point

    @property
    def word(self) -> str:
        return self.point.word

    def arm(self, site: Site, who: str) -> Callable[[], Came]:
        """Lets it come; what waits for it."""
        workers = set[int]()
        halt = Halt(site.master() or 0, self.point, lambda: workers.update(kill(site, who)))
        if self.point.word == "tick" and self.point.place >= REPLACES:
            (site.room / "retire").touch()

        def wait() -> Came:
            try:
                until(f"the death of the {who} at {self.point}", halt.is_over, PATIENCE)
            finally:
                halt.end()
            if not halt.is_reached:
                raise Wrong(f"the master has ended before {self.point}")
            return str(self.point), workers

        return wait


def kill(site: Site, who: str) -> set[int]:
    """Kills a process while the master is halted; the workers that there were."""
    site.hold.touch()
    victim: Any = {MASTER: site.master, SERVE: lambda: site.serve.pid}.get(who) or (lambda: until("the new master", site.new_master))
    process, workers = victim(), site.workers()
    os.kill(process, signal.SIGKILL)
    # (a master that is halted ends once it goes on)
    until(f"the end of the {who}", lambda: who == MASTER or not runs(process))
    return workers


def runs(process: int) -> bool:
    try:
        return pathlib.Path(f"/proc/{process}/stat").read_text().rpartition(")")[2].split()[0] != "Z"
    except OSError:
        return False


Death = AtLine | AtCall


def is_way_back(who: str, death: Death) -> bool:
    """Whether the old master goes on with its own workers."""
    return who == NEW and death.word == "USR2" and (isinstance(death, AtLine) or death.point.place < LEFT)


def dies(site: Site, who: str, death: Death, systemd: Systemd | None) -> str:
    """A death, and what comes of it; where it came."""
    if who == NEW and death.word != "USR2":
        site.wants("USR2", 0, "done", 2)
    wait = death.arm(site, who)
    sent = [site.sent(death.word)] if death.word != "tick" else []
    place, workers = wait()
    if systemd:
        site.serve.wait()
        site.before, site.given = systemd.start()
        site.serve = site.started()
    # No new worker can be ready: those that were have survived.
    answers = [answer_of(site.first, seconds=PATIENCE) for _ in range(ANSWERS)]
    site.check(f"answers: {answers}", all(answer.startswith("version 1 ") for answer in answers))
    site.hold.unlink()
    for one in sent:
        one.communicate(timeout=PATIENCE)
    old = set[int]() if is_way_back(who, death) else workers
    until(f"two workers of the next master, after {place}", lambda: has_recovered(site, old), PATIENCE)
    left = [file.name for file in (site.run / "survivors").iterdir()]
    site.check(f"files of survivors are left: {left}", not left)
    return place


def has_recovered(site: Site, old: set[int]) -> bool:
    """Whether all workers are those of a master that runs, and none is an old one."""
    try:
        found = status(site)
    except ValueError:
        # prefork-serve starts.
        return False
    if found.get("brief") or found["state"] != "serves" or found["survivors"]:
        return False
    running = {it["process"] for it in found["workers"]}
    return len(running) == 2 and running == site.workers() and not running & old


def deaths(who: str, wanted: Sequence[Death], name: str) -> Scenario:
    """The scenario of some deaths, one after another."""
    def scenario(site: Site) -> None:
        lay_out(site)
        systemd = Systemd(site.room / "notify") if who == SERVE else None
        try:
            if systemd:
                site.environment["NOTIFY_SOCKET"] = str(systemd.path)
            site.begin()
            places = [dies(site, who, death, systemd) for death in wanted]
            site.wants("HUP", 0, "done", 2)
            print(f"{name}: {len(places)} deaths ({'; '.join(places)}): {told_of(site.end('1'))}", flush=True)
            site.certify()
            certify_one_life(site, [death.word for death in wanted] if who == MASTER else [])
        finally:
            if systemd:
                systemd.close()

    words = ", ".join({death.word: 0 for death in wanted})
    scenario.__name__, scenario.__doc__ = name, f"The {who} is killed in {words}, again and again."
    return scenario


def certify_one_life(site: Site, words: list[str]) -> None:
    """The records are accepted, and masters that died in these words are one life with the last one."""
    said, faults, ended = certified(site)
    site.check(f"certify: {ended} {said} {faults}", ended == 0)
    # (a word may be over before a worker has killed its master)
    told = "; then the master died, "
    site.check(f"{told} is not said {len(words)} times: {said}", said.count(told) == len(words))
    head = f"1 to {len(words) + 1} are one life, if the keeper kept the sockets: open throughout {site.first}; "
    site.check(f"no one life: {said}", not words or f"\n{head}it ends without missing workers\n" in said)


def inodes(addresses: Iterable[str]) -> dict[str, set[str]]:
    """The sockets that listen at these ports, as the system numbers them."""
    lines = [line.split() for line in pathlib.Path("/proc/net/tcp").read_text().splitlines()[1:]]
    ports = {address: f":{place_of(address)[1]:04X}" for address in addresses}
    return {a: {one[9] for one in lines if one[3] == LISTENS and one[1].endswith(port)} for a, port in ports.items()}


def served_at(death: Death, first: str, dropped: str, added: str) -> list[str]:
    """The addresses that survivors of a death in a reload serve."""
    place = death.point.place if isinstance(death, AtCall) else ADDED
    return [first, *([dropped] if place < CLOSED else []), *([added] if place >= ADDED else [])]


def falls_back(site: Site, death: Death, ran: list[str], added: str) -> None:
    """The master dies in a reload from two addresses to the first of them and another one. The keeper has closed nothing, and
    holds what was added: survivors serve on the sockets that they have. The next master takes those of the configuration that
    ran. A request that no survivor can answer waits for it."""
    before = inodes(ran)
    wait = death.arm(site, MASTER)
    sent = site.sent("HUP")
    place, old = wait()
    with concurrent.futures.ThreadPoolExecutor() as pool:
        waiting = [pool.submit(answer_of, address, seconds=PATIENCE) for address in ran]
        for address in (served := served_at(death, ran[0], ran[1], added)):
            answers = [answer_of(address, seconds=PATIENCE) for _ in range(ANSWERS)]
            site.check(f"{place}: {address}: {answers}", all(answer.startswith("version 1 ") for answer in answers))
        own = inodes([added]) if added in served else {}
        site.check(f"{place}: the sockets are others", inodes(ran) == before and all(len(one) == 1 for one in own.values()))
        site.hold.unlink()
        sent.communicate(timeout=PATIENCE)
        until(f"two workers of the next master, after {place}", lambda: has_recovered(site, old), PATIENCE)
        answers = [one.result() for one in waiting]
    site.check(f"{place}: {answers}", all(answer.startswith("version 1 ") for answer in answers))
    site.check(f"{place}: the next master has other sockets", inodes(ran) == before)
    for address in ran:
        site.check(f"{place}: {address} is not served", answer_of(address).startswith("version 1 "))


def deaths_to_others(wanted: Sequence[Death], name: str) -> Scenario:
    """The scenario of deaths in a reload that drops an address and adds one. At the end the same reload is done."""
    def scenario(site: Site) -> None:
        lay_out(site)
        ran, added = [site.first, site.second], free_address()
        site.begin(listeners=ran)
        site.configure(listeners=[site.first, added])
        for death in wanted:
            falls_back(site, death, ran, added)
        said, faults, ended = certified(site)
        head = f"1 to {len(wanted) + 1} are one life, if the keeper kept the sockets: open throughout {', '.join(ran)}; "
        died = said.count("; then the master died, in HUP\n")
        is_one = f"{head}it ends without missing workers" in said and died == len(wanted)
        site.check(f"certify: {ended} {said} {faults}", ended == 0 and is_one)
        site.wants("HUP", 0, "done", 2)
        site.check("the added address is not served", answer_of(added, seconds=SECONDS).startswith("version 1 "))
        until("the dropped address refuses", lambda: is_refused(site.second))
        print(f"{name}: {len(wanted)} deaths: {told_of(site.end('1'))}", flush=True)

    scenario.__name__, scenario.__doc__ = name, "The master is killed in a reload to other addresses."
    return scenario


def told_of(found: dict[str, Any]) -> str:
    return (f"{found['answered']} answered, {found['failed']} failed, slowest {found['slowest']:.3f} s, "
            f"longest time between two answers {found['gap']:.3f} s")


def numbered(word: str, calls: Sequence[str]) -> list[AtCall]:
    return [AtCall(Point(word, place, call)) for place, call in enumerate(calls, 1)]


def points(who: str, word: str) -> list[AtCall]:
    """All calls of a word at which there is something that can die."""
    return [death for death in numbered(word, CALLS[word]) if who != NEW or death.point.call != "spawn-master"]


def all_deaths() -> list[Scenario]:
    found = [deaths(role, points(role, word), f"deaths_of_{role}_at_{word}") for role in (MASTER, NEW, SERVE) for word in WORDS]
    return [*found, deaths_to_others(numbered("HUP", TO_OTHERS), "deaths_in_a_reload_to_other_addresses")]


SCENARIOS: tuple[Scenario, ...] = (
    *(deaths(role, [AtLine(word, at) for word, at in lines], f"deaths_of_{role}") for role, lines in FEW.items()),
    # (each of two workers hears four lines before that: its name, two listeners, and that it is to begin)
    deaths_to_others([AtLine("HUP", 9)], "death_in_a_reload_to_other_addresses"),
)

"""While a word changes the service, all that tells of it shows both generations, each new worker as it becomes ready, and what is
waited for."""
import json
import pathlib
import re
import sys

from gate.addresses import answer_of
from gate.waiting import SECONDS, comes, until
from web.shortfalls import Views
from web.site import Scenario, Site

# A program that serves once it has removed one of the files in a folder. So each file lets one of those go that wait.
WAITS = r"""import os, socket, sys, time


def may_go():
    for name in os.listdir(sys.argv[1]):
        try:
            os.remove(os.path.join(sys.argv[1], name))
            return True
        except OSError:
            pass


while not may_go():
    time.sleep(0.02)
one = socket.socket(fileno=3)
one.setblocking(True)
while True:
    client, _ = one.accept()
    client.recv(9999)
    client.sendall(b"HTTP/1.1 200 OK\r\nContent-Length: 5\r\nConnection: close\r\n\r\nwell\n")
    client.close()
"""
LIT = re.compile(r'<li class="now" aria-current="step">([^<]*)</li>')


def differences(views: Views, generation: str, starting: int, ready: int, station: str, step: str) -> list[str]:
    """Where something else is told than that this number of workers of a generation start and are ready, beside two that run."""
    told, page = json.loads(answer_of(views.page, "/status.json") or "{}"), answer_of(views.page)
    status, text = json.loads(views.ctl("--json", "status") or "{}"), views.ctl("status")
    states = ["is ready"] * ready + ["starts"] * starting
    kinds = [f"{count} {kind}" for count, kind in ((ready, "ready"), (starting, "starting")) if count]
    # (in the order of the first of each kind)
    bars = {f'aria-label="generation {generation}: {", ".join(some)}"' for some in (kinds, kinds[::-1])}
    lines = [line for line in text.splitlines() if line.startswith(f"worker {generation}.")]
    is_counted = f"of 2 new{f' ({ready} ready)' if ready else ''} and 2 old workers run; {step}"
    looks = {
        "page": any(it in page for it in bars), "station": LIT.findall(page) == [station],
        "status": sorted(line.rpartition(", ")[2] for line in lines) == states,
        "now": any(line.startswith("now ") and is_counted in line for line in text.splitlines()), "systemd": is_counted in views.told_to_systemd(),
    }
    for name, found in (("json", status), ("status.json", told)):
        others, far = found.get("others", []), found.get("progress") or {}
        looks[name] = sorted(one["state"] for one in others if one["generation"] == generation) == states and len(found["workers"]) == 2 \
            and (far.get("new"), far.get("old"), far.get("ready"), far.get("step")) == (2, 2, ready, step)
    return [name for name, is_well in looks.items() if not is_well]


def check_told(site: Site, views: Views, what: str, generation: str, starting: int, ready: int, station: str, step: str) -> None:
    found: list[str] = []

    def holds() -> bool:
        try:
            found[:] = differences(views, generation, starting, ready, station, step)
        except (OSError, ValueError) as fault:
            found[:] = [f"nobody answers: {fault}"]
        return not found
    is_so = comes(holds)
    site.check(f"{what}: not told by {found}: {'' if is_so else views.ctl('status') + views.told_to_systemd()}", is_so)


def let_go(folder: pathlib.Path, *names: str) -> None:
    for name in names:
        (folder / name).touch()


def a_change_is_told(site: Site) -> None:
    """A reload whose workers become ready one after another, and an upgrade at its question."""
    tokens, program = site.room / "tokens", site.room / "waits.py"
    tokens.mkdir()
    program.write_text(WAITS)
    site.program = [sys.executable, str(program), str(tokens)]
    views = Views(site)
    for file in ("from.toml", "to.toml", "site.toml"):
        site.configure(file)
    let_go(tokens, "a", "b")
    site.serve = site.started()
    try:
        until("two workers", lambda: "serves: wanted 2, runs 2" in views.ctl("status"))
        sent = site.sent("HUP")
        are_ready = ("hear them ready", "the new workers are to be ready")
        check_told(site, views, "workers that start", "1.2", 2, 0, *are_ready)
        let_go(tokens, "a")
        check_told(site, views, "one that is ready", "1.2", 1, 1, *are_ready)
        let_go(tokens, "b")
        block, faults = sent.communicate(timeout=SECONDS)
        site.check(f"HUP: {block}{faults}", block.rstrip().rpartition("\n")[2].startswith("done "))
        let_go(tokens, "a", "b")
        sent = site.sent("USR2 attended")
        check_told(site, views, "an upgrade that asks", "2.3", 0, 2, "it asks", "its question is to be answered")
        site.sent("back").communicate(timeout=SECONDS)
        block, faults = sent.communicate(timeout=SECONDS)
        site.check(f"USR2 attended: {block}{faults}", block.rstrip().rpartition("\n")[2].startswith("rolled-back "))
        site.stop()
    finally:
        views.systemd.close()
    site.certify()


SCENARIOS: list[Scenario] = [a_change_is_told]

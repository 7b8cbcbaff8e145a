"""Upgrades: the new master of each, what becomes of it, and the workers of both."""
import concurrent.futures
import os
import pathlib
import re
import signal
import time

from gate.addresses import answer_of
from gate.waiting import SECONDS, until
from web.site import BROKEN, CLIENTS, Scenario, Site
from web.starts import status

# Masters that are not ready to take over as long as a file is there, and make another one then.
WAITING = """#!/bin/sh
if [ "$1" = adopt ]; then
    : >{began}
    while [ -e {hold} ]; do sleep 0.02; done
fi
exec {program} "$@"
"""
ANSWER = re.compile(r"version (\d) worker (\S+) process (\d+)")


def an_upgrade(site: Site) -> None:
    """USR2 to the other version."""
    site.begin()
    site.install(site.version(2))
    site.wants("USR2", 0, "done", 2)
    site.answered_by(2)
    site.end("12")
    site.certify()


# Goes into the application: its workers answer each tick, and miss their beats while a file is there.
LATE = """
def late(self, line, obeys=worker.Worker.obey):
    if line.startswith("tick ") and os.path.exists({there!r}):
        worker.say("late")
        return True
    return obeys(self, line)
worker.Worker.obey = late
"""


def workers_of_a_new_master_beat(site: Site) -> None:
    """After USR2, and after another one, the workers are told ticks: the status has their beats. One that misses them for
    longer than `timeout` is replaced, and no request fails."""
    late = site.room / "late"
    site.begin(timeout=6)
    for number in (2, 3):
        text = site.version(number)
        site.install(text.replace('VERSION = "', f'{LATE.format(there=str(late))}VERSION = "', 1))
        site.wants("USR2", 0, "done", 2)
        until("beats of both workers", lambda: all(it["last_beat_seconds"] is not None for it in status(site)["workers"]))
    old = site.workers()
    late.touch()
    until("two other workers", lambda: site.has_others(old))
    late.unlink()
    until("the block of the tick that killed one", lambda: " m3 kill 3.3 " in site.blocks())
    site.end("123", may_fail=2 * CLIENTS)
    site.certify()


def an_upgrade_of_two_groups(site: Site) -> None:
    """USR2 of two groups of workers to the other version: each address is served by its own group before and after."""
    site.begin()
    web, admin = {"listeners": [site.first], "workers": 2}, {"listeners": [site.second], "workers": 1}
    site.go_over_to(groups=[web, admin])
    site.wants("HUP", 0, "done", 3)
    site.install(site.version(2))
    site.wants("USR2", 0, "done", 3)
    site.answered_by(2)
    for address, numbers in ((site.first, "01"), (site.second, "2")):
        answers = [answer_of(address) for _ in range(20)]
        strange = [answer for answer in answers if not re.search(rf" worker 2\.3\.[{numbers}] ", answer)]
        site.check(f"{address} is served by a worker of another group: {strange}", not strange)
    site.end("12")
    site.certify()


def an_upgrade_that_exits(site: Site) -> None:
    """USR2 to a master that exits at its start, and to an application that does."""
    site.begin()
    site.replace_master(BROKEN)
    site.wants("USR2", 3, "rolled-back", 2)
    site.replace_master()
    site.install(BROKEN)
    site.wants("USR2", 3, "rolled-back", 2)
    site.end("1")
    site.certify()


def a_new_master_killed_early(site: Site) -> None:
    """USR2 whose new master is killed before its workers are ready."""
    site.begin()
    old = site.workers()
    site.hold.touch()
    site.install(site.version(2, waits=str(site.hold)))
    sent = site.sent("USR2")
    until("workers of the new master", lambda: len(site.workers() - old) == 2)
    site.kill(site.new_master())
    until("the end of the new master", lambda: site.new_master() is None)
    site.hold.unlink()
    site.heard(sent, "USR2", 3, "rolled-back", 2)
    site.check("the old workers are not those from before", site.workers() == old)
    site.end("1")
    site.certify()


def a_new_master_killed_late(site: Site) -> None:
    """USR2 whose new master is killed after its workers were ready, while a slow request holds an old worker's end."""
    began = site.hold_slow()
    site.begin()
    old = site.workers()
    with concurrent.futures.ThreadPoolExecutor(1) as pool:
        asked = pool.submit(answer_of, site.first, "/slow")
        try:
            until("the slow request", began.exists)
            site.install(site.version(2))
            sent = site.sent("USR2")
            until("the end of an old worker", lambda: len(site.workers() & old) == 1)
            site.answered_by(2)
            site.kill(site.new_master())
        finally:
            site.hold.unlink()
        site.check("the slow request isn't answered", asked.result(SECONDS).startswith("version 1 "))
    site.install(site.app_text)
    site.heard(sent, "USR2", 3, "rolled-back", 2)
    # (the old master starts the program that is there: version 2, or 1 where that was back in time)
    site.end("12")
    site.certify()


def two_versions(site: Site, hold: pathlib.Path) -> str:
    """The text of the application whose workers of a new master are of version 2, and wait while a file is there."""
    is_new = 'os.environ["PREFORK_WORKER"].startswith("2.")'
    waits = f'while VERSION == "2" and os.path.exists({str(hold)!r}):\n    time.sleep(0.02)\n'
    return site.app_text.replace('VERSION = "1"\n', f'VERSION = "2" if {is_new} else "1"\n{waits}')


def replaced(site: Site, old: set[int]) -> list[str]:
    """The name of an old worker that has answered and was not there before."""
    found = ANSWER.match(answer_of(site.first))
    return [found[2]] if found and found[1] == "1" and int(found[3]) not in old else []


def an_upgrade_while_an_old_worker_is_killed(site: Site) -> None:
    """USR2 whose old worker is killed before the new master takes up what it was handed: another one of the same name
    answers while the new workers are not ready yet. Only requests in the killed worker fail, one of each client at
    most."""
    began, adopts = site.room / "began", site.room / "adopts"
    site.install(two_versions(site, site.hold))
    site.begin()
    old = site.workers()
    adopts.touch()
    site.hold.touch()
    site.replace_master(WAITING.format(began=began, hold=adopts, program=site.certifier))
    sent = site.sent("USR2")
    until("the new master", began.exists)
    victim = min(old)
    os.kill(victim, signal.SIGKILL)
    until("the worker's end", lambda: victim not in site.workers())
    killed = time.monotonic()
    adopts.unlink()
    name = until("an answer of another old worker", lambda: replaced(site, old))[0]
    site.check("the upgrade has ended", sent.poll() is None)
    site.hold.unlink()
    block = site.heard(sent, "USR2", 0, "done", 2)
    generation, number = name.rsplit(".", 1)
    order = rf" m1 fork {generation} {number} : .* m1 census {generation} : counted 0-1\n.* m2 census 2\.2 : counted 0-1\n"
    site.check(f"worker {name} is not replaced before: {block}", re.search(order, block, re.S))
    site.answered_by(2)
    found = site.end("12", may_fail=CLIENTS)
    late = [it for it in found["failures"] if it["began"] > killed and not it["kept"]]
    site.check(f"requests on connections that were made after it failed: {late}", not late)
    site.certify()


SCENARIOS: tuple[Scenario, ...] = (
    an_upgrade, workers_of_a_new_master_beat, an_upgrade_of_two_groups, an_upgrade_that_exits, an_upgrade_while_an_old_worker_is_killed,
    a_new_master_killed_early, a_new_master_killed_late,
)

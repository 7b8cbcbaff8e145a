"""Much at a time: words in a burst, upgrades in a row, and workers that flood the pipe to their master."""
import os
import pathlib
import signal
import subprocess
from collections.abc import Collection

from gate.addresses import free_address, is_answered
from gate.waiting import SECONDS, comes, until
from web.site import CLIENTS, SERVICE, Scenario, Site, descriptors
from web.starts import answer_to, asks, status

UPGRADES, HUPS, MANY = 10, 20, 200
# Goes into the application: lines that nobody asked for, without an end, from a moment on.
NOISE = """
import threading
def flood():
    while True:
        os.write(1, b"noise\\n" * 1000)
"""
FROM_THE_START = f'{NOISE}if sys.argv[1:] == ["child"]:\n    threading.Thread(target=flood, daemon=True).start()\n'
AT_ITS_END = f"{NOISE}worker.Server.finish = lambda self: flood()\n"


def hups_in_a_burst(site: Site) -> None:
    """Twenty HUPs that come at a time: each sender has a block, and fewer reloads are made. So that they do, however
    slowly they are sent, `serve` is stopped meanwhile."""
    site.begin()
    os.kill(site.serve.pid, signal.SIGSTOP)
    try:
        askers = [asks(site, "HUP") for _ in range(HUPS)]
        site.check("a HUP was carried out before all were sent", "word HUP\n" not in site.blocks())
    finally:
        os.kill(site.serve.pid, signal.SIGCONT)
    answers = [answer_to(asker) for asker in askers]
    wrong = [answer for answer in answers if not answer.rpartition("\ndone ")[1]]
    site.check(f"HUPs were not done: {wrong}", not wrong)
    site.check("each HUP was a reload of its own", len(set(answers)) < HUPS)
    site.check_workers("HUP", 2)
    site.end("1")
    site.certify()


def opened(processes: Collection[int]) -> int:
    """How many descriptors these have together."""
    return sum(len(list(pathlib.Path(f"/proc/{number}/fd").iterdir())) for number in processes)


def of_masters(site: Site) -> list[int]:
    """The masters, and what is between them."""
    return [number for number, words in site.mark.processes().items() if words[1:2] in (["supervise"], ["adopt"])]


def upgrades_in_a_row(site: Site) -> None:
    """Ten upgrades, one after another: each is done, and leaves as many processes and descriptors as the first one: the
    master that carries out words, that of the workers, and what is between them. All end with the service."""
    site.begin()
    first = 0
    for number in range(2, UPGRADES + 2):
        site.install(site.version(number))
        site.wants("USR2", 0, "done", 2)
        site.answered_by(number)
        until("the end of the master before", lambda: len(of_masters(site)) == 3)
        known = [*of_masters(site), site.serve.pid, site.keeper() or 0]
        first = opened(known) if number == 2 else first
        # (a client of the status has a descriptor of the service for a moment)
        site.check(f"{opened(known)} descriptors after {number - 1} upgrades, not {first}", comes(lambda: opened(known) <= first))
        site.check(f"the masters: {status(site)['masters']}", len(set(status(site)["masters"])) == 2)
    found = status(site)
    site.check(f"the generation: {found['generation']}", found["generation"].startswith(f"{UPGRADES + 1}."))
    said = site.sent("status").communicate(timeout=SECONDS)[0]
    site.check(f"the first master is not named: {said}", said.count("old master  process ") == 1)
    site.check_workers("upgrades", 2)
    site.end([str(number) for number in range(1, UPGRADES + 2)])
    site.certify()


def a_worker_floods_from_its_start(site: Site) -> None:
    """HUP to a version that says what nobody asked for, without an end: it is rolled back, and the next one is done. A
    worker that floods while nobody reads ends with the service at the latest."""
    site.begin()
    old = site.workers()
    site.install(site.app_text.replace('VERSION = "1"', f'VERSION = "1"{FROM_THE_START}'))
    block, faults = site.sent("HUP").communicate(timeout=SECONDS)
    site.check(f"HUP: {block}{faults}", "\nrolled-back " in block)
    site.check("the old workers are not those from before", old <= site.workers())
    site.install(site.version(2))
    block, faults = site.sent("HUP").communicate(timeout=SECONDS)
    site.check(f"HUP: {block}{faults}", "\ndone " in block)
    site.check("an old worker is left", comes(lambda: not old & site.workers()))
    # (a worker that floods may have taken requests before it is killed)
    site.end("12", may_fail=CLIENTS)
    site.certify()


def a_worker_floods_after_quit(site: Site) -> None:
    """HUP from a version that floods its pipe once it is told to quit: the reload is done. Such a worker ends with the
    service at the latest."""
    site.install(site.app_text.replace('VERSION = "1"', f'VERSION = "1"{AT_ITS_END}'))
    site.begin()
    old = site.workers()
    site.install(site.version(2))
    block, faults = site.sent("HUP").communicate(timeout=SECONDS)
    site.check(f"HUP: {block}{faults}", "\ndone " in block)
    site.answered_by(2)
    site.check("there are no new workers", comes(lambda: len(site.workers() - old) == 2))
    site.end("12", may_fail=CLIENTS)
    site.certify()


def two_hundred_workers(site: Site) -> None:
    """200 workers at four addresses, where no process may have more than 1,024 descriptors: two reloads and an upgrade,
    each with 400 workers for a while, and a keeper that is killed after each. Each address is answered all the while. A
    worker that is killed is replaced."""
    page = site.home / "page"
    subprocess.run(["cc", "-std=gnu11", "-O2", "-o", page, SERVICE / "tests" / "programs" / "page.c"], check=True)
    site.program, site.before = [str(page)], descriptors(1024)
    places = [site.first, site.second, free_address(), free_address()]
    site.begin(listeners=places, workers=MANY)
    for word in ("HUP", "HUP", "USR2"):
        old, keeper = site.workers(), site.keeper()
        site.check(f"{len(old)} workers before {word}", len(old) == MANY)
        site.wants(word, 0, "done", MANY)
        until("other workers", lambda: site.has_others(old, MANY))
        site.check(f"an address is not answered after {word}", all(is_answered(it, SECONDS) for it in places))
        site.kill(keeper)
        until("another keeper", lambda: site.keeper() not in (None, keeper))
    victim = min(site.workers())
    site.kill(victim)
    until("another worker", lambda: site.has_others({victim}, MANY))
    blocks = site.blocks()
    site.end("1", may_fail=CLIENTS)
    # (a program that checks itself as it runs takes a minute for an upgrade of that size)
    site.certify(blocks[: blocks.index("word USR2\n")])


SCENARIOS: tuple[Scenario, ...] = (
    two_hundred_workers, hups_in_a_burst, upgrades_in_a_row, a_worker_floods_from_its_start, a_worker_floods_after_quit,
)

"""Reloads in steps: how many workers run at once, a step that fails, and who is killed meanwhile."""
import re
import threading
import time

from gate.waiting import SECONDS, until
from web.site import CLIENTS, Scenario, Site

WORKERS = 4
# Goes into the application: new workers from a number on do not start, and old ones do.
FAILS = """
if re.match(r"1\\.[2-9]\\.([{numbers}])$", os.environ.get("PREFORK_WORKER", "")):
    sys.exit(7)
"""
# Goes into the application: a worker of a new generation makes a file, and waits while another one is there.
WAITS = """
if os.environ.get("PREFORK_WORKER", "") == {name!r}:
    open({began!r}, "w").close()
    while sys.argv[1:] == ["child"] and os.path.exists({hold!r}):
        time.sleep(0.02)
"""
CALL = re.compile(r"^\d+ m1 (fork|quit) 1\.(\d+) (\d+) : (?:forked|ok)$", re.M)


class Watch:
    """The most workers that were seen at once, from its start to its end."""

    def __init__(self, site: Site):
        self.site, self.most, self.is_over = site, 0, False
        self.watching = threading.Thread(target=self.look, daemon=True)

    def __enter__(self) -> "Watch":
        self.watching.start()
        return self

    def look(self) -> None:
        while not self.is_over:
            self.most = max(self.most, len(self.site.workers()))
            time.sleep(0.01)

    def __exit__(self, *_: object) -> None:
        self.is_over = True
        self.watching.join()


def changed(site: Site, version: int, code: str) -> str:
    """The application in another version, with more code before its page."""
    return site.version(version).replace("import os\n", "import os\nimport re\n").replace("\n\ndef page", f"{code}\n\ndef page")


def moves(block: str) -> list[str]:
    """Which workers were started and told to quit, in order: `+2.0` and `-1.3`."""
    return [f"{'+' if kind == 'fork' else '-'}{generation}.{number}" for kind, generation, number in CALL.findall(block)]


def in_steps(site: Site) -> None:
    """HUP with `surge` 1, 3 and as many as there are workers: new and old ones by turns, never more than that many beside those
    that are wanted, and no request fails."""
    site.begin(workers=WORKERS, surge=1)
    version = 1
    for surge in (1, 3, WORKERS):
        version += 1
        site.go_over_to(workers=WORKERS, surge=surge)
        site.install(site.version(version))
        with Watch(site) as watch:
            block = site.wants("HUP", 0, "done", WORKERS)
        site.check(f"surge {surge}: {watch.most} workers ran at once", watch.most <= WORKERS + surge)
        firsts = moves(block)[: surge + 1]
        new = [f"+{version}.{number}" for number in range(surge)]
        site.check(f"surge {surge}: it begins with {firsts}", firsts == [*new, f"-{version - 1}.{WORKERS - 1}"])
        site.answered_by(version)
    site.end("1234")


def a_step_that_fails(site: Site) -> None:
    """A new worker that does not start, at each step: the steps before are taken back, old workers are started again before the
    new ones of their step quit, and the service of before answers."""
    site.begin(workers=WORKERS, surge=1)
    for number in range(WORKERS):
        site.install(changed(site, 2, FAILS.format(numbers=f"{number}-9")))
        with Watch(site) as watch:
            block = site.wants("HUP", 3, "rolled-back", WORKERS)
        site.check(f"step {number}: {watch.most} workers ran at once: {block}", watch.most <= WORKERS + 1)
        made = moves(block)
        again = [move for move in made if move.startswith("+1.")]
        wanted = [f"+1.{WORKERS - number + at}" for at in range(number)]
        site.check(f"step {number}: {made} starts {again} again", again == wanted)
    site.install(site.app_text)
    site.wants("HUP", 0, "done", WORKERS)
    site.end("12")
    site.certify()


def killed_in_a_step(site: Site, kill: str) -> None:
    """A process killed while the worker of the second step starts."""
    name, began = "1.2.1", site.room / "began"
    site.begin(workers=WORKERS, surge=1)
    old = site.workers()
    site.hold.touch()
    site.install(changed(site, 2, WAITS.format(name=name, began=str(began), hold=str(site.hold))))
    sent = site.sent("HUP")
    until("the second step", began.exists)
    if kill == "master":
        site.kill(site.master())
        site.hold.unlink()
        sent.communicate(timeout=SECONDS)
    else:
        site.kill(min(site.workers() & old))
        site.hold.unlink()
        block, faults = sent.communicate(timeout=SECONDS)
        site.check(f"HUP: {sent.returncode}: {block}{faults}", sent.returncode == 0)
    until("workers of the new version alone", lambda: site.has_others(old, WORKERS))
    site.answered_by(2)
    site.wants("HUP", 0, "done", WORKERS)
    site.end("12", may_fail=CLIENTS if kill == "worker" else 0)
    if kill == "worker":
        site.certify()


def an_old_worker_killed_in_a_step(site: Site) -> None:
    """An old worker killed while the new one of the second step starts: the reload goes on, and is done."""
    killed_in_a_step(site, "worker")


def the_master_killed_in_a_step(site: Site) -> None:
    """The master killed there: the next one starts the new version, and the workers of both generations serve until then."""
    killed_in_a_step(site, "master")


SCENARIOS: tuple[Scenario, ...] = (in_steps, a_step_that_fails, an_old_worker_killed_in_a_step, the_master_killed_in_a_step)

"""Upgrades that ask their operator twice: who serves at each question, each answer, and who is killed meanwhile."""
import os
import signal
import subprocess
import time

from gate.addresses import answer_of, is_answered, is_refused
from gate.waiting import SECONDS, until
from web.site import CLIENTS, Scenario, Site
from web.starts import status

UPGRADE = "USR2 attended"
# Longer than the time between two ticks; and longer than the `timeout` of a worker that must not count as hanging
# afterwards. A worker of a machine that halts for a while does not count as hanging either.
PAUSE, LONG_PAUSE, TIMEOUT = 2.5, 6.5, 6


def begin_upgrade(site: Site) -> subprocess.Popen[str]:
    """An upgrade to version 2, up to its first question."""
    site.install(site.version(2))
    sent = site.sent(UPGRADE)
    asks(site, 1)
    return sent


def asks(site: Site, question: int) -> None:
    """Waits for a question."""
    until(f"question {question}", lambda: site.question().startswith(f"asks {question}: "))


def answers(site: Site, question: int, word: str) -> None:
    """Answers a question."""
    said, faults = site.sent(word).communicate(timeout=SECONDS)
    site.check(f"{word} at question {question}: {said}{faults}", said == f"word {word}\nanswered {question} {word}\n")


def refuses_answers(site: Site) -> None:
    """Nothing is asked, so nothing is answered."""
    for word in ("go", "back"):
        site.wants_refused(word, "refused not-asked")


def versions(site: Site) -> set[str]:
    """Which versions answer."""
    return {answer_of(site.first).split()[1] for _ in range(40)}


def pauses(site: Site) -> None:
    """Lets it ask for a while. No tick is told: the master would carry it out afterwards."""
    before = status(site)["ticks"]
    time.sleep(LONG_PAUSE)
    told = status(site)["ticks"] - before
    site.check(f"{told} ticks were told while it asked", not told)


def ticks_twice(site: Site) -> None:
    """Waits for two more ticks: the third one is told once the second is done."""
    wanted = status(site)["ticks"] + 3
    until("two ticks", lambda: status(site)["ticks"] >= wanted)


def attended_go(site: Site) -> None:
    """Go at both questions: at the first both generations serve, at the second the new one alone. Other words wait."""
    site.begin(timeout=TIMEOUT)
    refuses_answers(site)
    sent = begin_upgrade(site)
    site.check_workers("question 1", 4)
    until("answers of both versions", lambda: versions(site) == {"1", "2"})
    waits = site.sent("TTIN")
    pauses(site)
    site.check("a word does not wait for the answer", waits.poll() is None and sent.poll() is None)
    answers(site, 1, "go")
    asks(site, 2)
    site.check_workers("question 2", 2)
    site.check("an old worker answers at question 2", versions(site) == {"2"})
    pauses(site)
    answers(site, 2, "go")
    block, _ = sent.communicate(timeout=SECONDS)
    site.check(f"{UPGRADE}: {block}", sent.returncode == 0 and "\ndone cause none " in block)
    site.heard(waits, "TTIN", 0, "done", 3)
    refuses_answers(site)
    site.wants("HUP", 0, "done", 2)
    site.end("12")
    site.certify()


def attended_back_at_1(site: Site) -> None:
    """Back at the first question: the old workers have served all the while, and go on. No tick takes them for
    hanging, however long it asked."""
    site.begin(timeout=TIMEOUT)
    old = site.workers()
    sent = begin_upgrade(site)
    until("answers of both versions", lambda: versions(site) == {"1", "2"})
    pauses(site)
    answers(site, 1, "back")
    site.heard(sent, UPGRADE, 3, "rolled-back", 2)
    ticks_twice(site)
    site.check("the old workers are not those from before", site.workers() == old)
    site.check("a new worker answers", versions(site) == {"1"})
    refuses_answers(site)
    site.end("12")
    site.certify()


def attended_back_at_2(site: Site) -> None:
    """Back at the second question: the old master starts its workers again, from the file that was put back. Then it can
    be asked for another upgrade, which goes on."""
    site.begin(timeout=TIMEOUT)
    sent = begin_upgrade(site)
    answers(site, 1, "go")
    asks(site, 2)
    new = site.workers()
    pauses(site)
    site.install(site.app_text)
    answers(site, 2, "back")
    site.heard(sent, UPGRADE, 3, "rolled-back", 2)
    site.check("new workers are left", not site.workers() & new)
    site.check("a new worker answers", versions(site) == {"1"})
    ticks_twice(site)
    sent = begin_upgrade(site)
    for question in (1, 2):
        asks(site, question)
        answers(site, question, "go")
    site.heard(sent, UPGRADE, 0, "done", 2)
    site.end("12")
    site.certify()


def attended_drops_an_address(site: Site) -> None:
    """An address that the new configuration does not have is served at the first question, refused a while after it,
    and served again on the way back from the second."""
    site.begin(listeners=[site.second, site.first])
    site.go_over_to()
    sent = begin_upgrade(site)
    site.check("a dropped address isn't served at question 1", is_answered(site.second, SECONDS))
    answers(site, 1, "go")
    asks(site, 2)
    until("the dropped address is refused", lambda: is_refused(site.second))
    site.install(site.app_text)
    answers(site, 2, "back")
    site.heard(sent, UPGRADE, 3, "rolled-back", 2)
    site.check("a dropped address isn't served after the way back", is_answered(site.second, SECONDS))
    site.end("12")
    site.certify()


def rolls_back(site: Site, killed_at: int, words: tuple[str, ...]) -> None:
    """An upgrade whose new master is killed at a question, with these answers: the old service runs again."""
    sent = begin_upgrade(site)
    for question, word in enumerate(words, 1):
        asks(site, question)
        if question == killed_at:
            site.kill(site.new_master())
            until("the end of the new master", lambda: site.new_master() is None)
            site.install(site.app_text)
        answers(site, question, word)
    site.heard(sent, UPGRADE, 3, "rolled-back", 2)
    site.answered_by(1)


def attended_new_master_killed_at_1(site: Site) -> None:
    """The new master killed at the first question, and each answer after it."""
    site.begin()
    for words in (("back",), ("go", "go"), ("go", "back")):
        rolls_back(site, 1, words)
    site.end("12")
    site.certify()


def attended_new_master_killed_at_2(site: Site) -> None:
    """The new master killed at the second question, and each answer after it."""
    site.begin()
    for words in (("go", "go"), ("go", "back")):
        rolls_back(site, 2, words)
    site.end("12")
    site.certify()


def loses_one_of(site: Site, workers: set[int]) -> None:
    """Kills a worker while it asks. Nobody replaces it."""
    victim = min(workers)
    os.kill(victim, signal.SIGKILL)
    until("the worker's end", lambda: victim not in site.workers())
    left = site.workers()
    time.sleep(PAUSE)
    site.check(f"of {left} other workers run: {site.workers()}", site.workers() == left)


def attended_worker_killed_then_go(site: Site) -> None:
    """An old worker killed at the first question and a new one at the second, and go: only requests in them fail. The
    last count finds the second, and another one is started."""
    site.begin()
    old = site.workers()
    sent = begin_upgrade(site)
    loses_one_of(site, old)
    answers(site, 1, "go")
    asks(site, 2)
    loses_one_of(site, site.workers())
    answers(site, 2, "go")
    site.heard(sent, UPGRADE, 0, "done", 2)
    site.end("12", may_fail=2 * CLIENTS)
    site.certify()


def attended_worker_killed_then_back(site: Site) -> None:
    """A worker killed at the question at which it goes back: an old one at the first, a new one at the second."""
    site.begin()
    old = site.workers()
    sent = begin_upgrade(site)
    loses_one_of(site, old)
    answers(site, 1, "back")
    site.heard(sent, UPGRADE, 3, "rolled-back", 2)
    old = site.workers()
    sent = begin_upgrade(site)
    answers(site, 1, "go")
    asks(site, 2)
    loses_one_of(site, site.workers())
    site.install(site.app_text)
    answers(site, 2, "back")
    site.heard(sent, UPGRADE, 3, "rolled-back", 2)
    site.check("an old worker is left from before", not site.workers() & old)
    site.end("12", may_fail=2 * CLIENTS)
    site.certify()


def attended_master_killed(site: Site) -> None:
    """The old master killed while it asks: the upgrade is lost, and `serve` starts a master again."""
    site.begin()
    old = site.workers()
    sent = begin_upgrade(site)
    site.install(site.app_text)
    site.kill(site.master())
    said, _ = sent.communicate(timeout=SECONDS)
    site.check(f"{UPGRADE}: {said}", said == "lost: the master has ended\n" and sent.returncode == 1)
    until("two other workers", lambda: site.has_others(old) and site.question() == "asks nothing\n")
    refuses_answers(site)
    site.wants("HUP", 0, "done", 2)
    site.end("12")
    site.certify()


def attended_serve_killed(site: Site) -> None:
    """`serve` killed while it asks: the end of the input goes back, and stops; nothing is left for the next start."""
    site.begin()
    begin_upgrade(site)
    site.check_load(site.end_load(), "12")
    site.serve.kill()
    site.serve.wait()
    until("the end of all processes", lambda: not site.mark.processes())
    site.install(site.app_text)
    site.begin()
    site.wants("HUP", 0, "done", 2)
    site.end("1")
    site.certify()


def attended_stop_waits(site: Site) -> None:
    """A stop that comes while it asks waits for the answer."""
    site.begin()
    sent = begin_upgrade(site)
    site.check_load(site.end_load(), "12")
    stop = site.sent("QUIT")
    time.sleep(PAUSE)
    site.check("a stop does not wait for the answer", stop.poll() is None and sent.poll() is None)
    answers(site, 1, "back")
    block, _ = sent.communicate(timeout=SECONDS)
    site.check(f"{UPGRADE}: {block}", sent.returncode == 3)
    block, _ = stop.communicate(timeout=SECONDS)
    site.check(f"QUIT: {block}", stop.returncode == 0 and site.serve.wait(SECONDS) == 0)
    site.nothing_left()
    site.certify()


SCENARIOS: tuple[Scenario, ...] = (
    attended_go, attended_back_at_1, attended_back_at_2, attended_drops_an_address, attended_new_master_killed_at_1,
    attended_new_master_killed_at_2, attended_worker_killed_then_go, attended_worker_killed_then_back,
    attended_master_killed, attended_serve_killed, attended_stop_waits,
)

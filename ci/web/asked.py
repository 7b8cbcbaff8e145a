"""Upgrades whose questions a command answers: it asks new workers alone, and they go on, go back, or are left to people."""
import os
import signal
import subprocess
from typing import Any

from gate.waiting import SECONDS, until
from web.attended import UPGRADE, answers, asks, versions
from web.site import BIN, SERVICE, Scenario, Site

EXAMPLE = SERVICE / "examples" / "answers_of_new.py"
# Fewer could be those of one worker by chance.
TIMES = 8


def begin_upgrade(site: Site, version: int, command: str, *more: str) -> subprocess.Popen[str]:
    """An upgrade to a version, whose questions a command answers."""
    site.install(site.version(version))
    typed: list[Any] = [BIN / "prefork-ctl", "--folder", site.run, "--ask", command, "--after", "1", *more, UPGRADE]
    return subprocess.Popen(typed, stdout=subprocess.PIPE, stderr=subprocess.PIPE, text=True, env=site.environment, cwd=site.room)


def noted(site: Site, text: str) -> None:
    """The journal has the answer."""
    journal = (site.run / "journal").read_text()
    site.check(f"the journal has no {text!r}: {journal[-1000:]}", text in journal)


def asked_of_new_workers(site: Site) -> None:
    """Each new worker has answered by itself, at both questions, while old and new ones serve; with another status than is
    wanted the first answer of one goes back. Of a key of the file, too."""
    site.begin()
    good = f"{EXAMPLE} --times {TIMES} --within {SECONDS} /"
    site.heard(begin_upgrade(site, 2, good, "--ask-within", str(2 * SECONDS)), UPGRADE, 0, "done", 2)
    site.answered_by(2)
    for question in (1, 2):
        noted(site, f"question {question} is answered: go: {EXAMPLE} has ended with status 0")
        noted(site, f"question {question}: each of 2 new workers has answered at least {TIMES} times")
    site.heard(begin_upgrade(site, 3, f"{good} --status 404"), UPGRADE, 3, "rolled-back", 2)
    noted(site, "has answered 200, after 0 good answers of new workers")
    site.check("a new worker answers", versions(site) == {"2"})
    site.end("12", perhaps="3")
    site.certify()


def asked_and_interrupted(site: Site) -> None:
    """A command that hangs: a person is faster, prefork-ctl is told to end, and it is killed. Nothing of the command is left."""
    site.begin()
    hangs = "sh -c 'echo $$ >asked; exec sleep 1000'"

    def hanging(question: int) -> subprocess.Popen[str]:
        (site.room / "asked").unlink(missing_ok=True)
        sent = begin_upgrade(site, 2, hangs)
        asks(site, question)
        until("the command", lambda: (site.room / "asked").exists() and (site.room / "asked").read_text())
        return sent
    sent = hanging(1)
    answers(site, 1, "back")
    site.heard(sent, UPGRADE, 3, "rolled-back", 2)
    sent = hanging(1)
    sent.send_signal(signal.SIGTERM)
    site.heard(sent, UPGRADE, 3, "rolled-back", 2)
    noted(site, "question 1 is answered: back: prefork-ctl was told to end")
    sent = hanging(1)
    sent.kill()
    sent.communicate(timeout=SECONDS)
    until("the end of the command", lambda: not os.path.exists(f"/proc/{(site.room / 'asked').read_text().strip()}"))
    asks(site, 1)
    answers(site, 1, "back")
    until("the end of the upgrade", lambda: site.question() == "asks nothing\n")
    site.check_workers("the upgrade that went back", 2)
    site.check("a new worker answers", versions(site) == {"1"})
    site.end("12")
    site.certify()


SCENARIOS: tuple[Scenario, ...] = (asked_of_new_workers, asked_and_interrupted)

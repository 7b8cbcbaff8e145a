"""Attended upgrades that are answered once they ask, and an old worker that is replaced while the new master starts."""
import os
import pathlib
import signal
import tempfile

from gate.tally import Tally
from gate.waiting import comes, until
from masters.lasting import BREAKS, Attending, Lasting
from masters.runs import Program, checked
from masters.wrong_answers import STARTED, STOPPED, block

# What answers a question: a line that goes on or back, or a read that fails, which goes back too.
GOES = ("WINCH", "QUIT")
FAILS = "a read that fails"
ANSWERS = (
    ("WINCH", "QUIT"), ("QUIT", "WINCH"), ("HUP",), ("WINCH", "HUP"), (FAILS,), ("QUIT", FAILS),
)
# The masters take turns until the old one has counted its worker.
TO_QUESTION_1 = [
    "m1 spawn-master 2 : spawned", "m2 adopt : adopted", "m1 census 1.1 : counted 0", "m2 fork 2.2 0 : forked",
    "m2 await-ready 2.2 0 : ready", "m2 census 2.2 : counted 0",
]
TURNS = "turns no\n"
TO_QUESTION_2 = ["m1 ask 1 : go", "m1 quit 1.1 0 : ok", "m1 await-gone 1.1 0 : gone"]
STARTS_AGAIN = ["m1 fork 1.1 0 : forked", "m1 await-ready 1.1 0 : ready"]
ENDS_NEW, COUNTS_OLD = "m1 term-master 2 : ok", "m1 census 1.1 : counted 0"
GOES_OVER = ["m1 ask 2 : go", "m1 alive 2 : alive", "m1 leave : ok", "m2 census 2.2 : counted 0"]


def upgraded(answers: tuple[str, ...], is_dead: bool) -> tuple[list[str], str, str]:
    """The calls of an attended upgrade of one worker, its report, and what `certify` says of it. The new master may be
    dead at a question."""
    if len(answers) == 1:
        return [*TO_QUESTION_1, "m1 ask 1 : back", ENDS_NEW, COUNTS_OLD], "rolled-back cause 7", "7 fail back\n"
    begun = [*TO_QUESTION_1, *TO_QUESTION_2]
    if answers[1] not in GOES:
        back = ["m1 ask 2 : back", *STARTS_AGAIN, ENDS_NEW, COUNTS_OLD]
        return [*begun, *back], "rolled-back cause 10", "10 fail back\n"
    if is_dead:
        back = ["m1 ask 2 : go", "m1 alive 2 : gone", ENDS_NEW, *STARTS_AGAIN, COUNTS_OLD]
        return [*begun, *back], "rolled-back cause 11", "11 exit m2\n"
    return [*begun, *GOES_OVER], "done cause none", ""


def wanted_of(answers: tuple[str, ...], is_dead: bool) -> tuple[str, int, str]:
    """The blocks of a master that is told to upgrade and answered, its status and its patterns."""
    calls, report, pattern = upgraded(answers, is_dead)
    numbered = [f"{number} {call}" for number, call in enumerate(calls, 1)]
    blocks = STARTED + block("USR2 attended", *numbered, f"{report} pid no-file")
    if answers[-1] == FAILS:
        # (a line that waits is done, and then it ends)
        return blocks + block("beat 7 1", "refused T3"), 1, f"next\n{TURNS}{pattern}next\n"
    stopped = STOPPED.replace("m1 ", "m2 ").replace(" 1.1 ", " 2.2 ") if report.startswith("done") else STOPPED
    return blocks + stopped, 3 if report.startswith("rolled") else 0, f"next\n{TURNS}{pattern}next\n"


def answers_when_asked(master: Attending, answers: tuple[str, ...], killed_at: int) -> list[str]:
    """Answers each question once it is asked. What is wrong with the workers that run then."""
    found, is_dead = [], False
    master.tell("USR2 attended")
    for question, answer in enumerate(answers, 1):
        master.asked(question)
        if question == killed_at:
            master.kill_new_master()
            is_dead = True
        running = (2, 1)[question - 1] - is_dead
        if not comes(lambda: len(master.those("child")) == running):
            found.append(f"{len(master.those('child'))} workers run at question {question}, and not {running}")
        if answer == FAILS:
            master.tell("beat 7 1")
            master.fails()
        else:
            master.tell(answer)
    return found


def attended(program: Program, answers: tuple[str, ...], killed_at: int = 0) -> Tally:
    """An attended upgrade of one worker that is answered once it asks, with a new master that may be killed then."""
    blocks, status, patterns = wanted_of(answers, bool(killed_at))
    faults = ["prefork: file"] if answers[-1] == FAILS else []
    with tempfile.TemporaryDirectory() as room, Attending(program, 1, room) as master:
        try:
            found = answers_when_asked(master, answers, killed_at)
            wrong = master.ended(faults)
        except BREAKS as fault:
            return checked([f"an attended upgrade, answered {answers}, killed at {killed_at}: {fault}"])
        ended, text = master.process.returncode, master.text()
        said = program.certified(["--from", "s.toml"], text.encode(), room)
    if (ended, text) != (status, blocks):
        found.append(f"it ends with {ended} and writes {text!r}")
    if said.stdout.decode() != patterns:
        found.append(f"certify gives {said.stdout!r}")
    return checked([f"an attended upgrade, answered {answers}, killed at {killed_at}: {line}" for line in found + wrong])


# A program whose new masters wait until a file is there, and whose workers of them until another one is.
WAITS = """\
#!/bin/sh
case $1 in
    adopt) : >begun; until [ -e adopts ]; do sleep 0.02; done; exec MASTER adopt --program "$0" ;;
    child) until [ -e serves ]; do sleep 0.02; done; exec MASTER child ;;
esac
"""
# What comes of it where one of two old workers is killed meanwhile: the masters take turns, call by call.
REPLACED = [
    "m1 spawn-master 2 : spawned", "m2 adopt : adopted", "m1 census 1.1 : counted 1", "m2 fork 2.2 0 : forked",
    "m1 fork 1.1 0 : forked", "m2 fork 2.2 1 : forked", "m1 await-ready 1.1 0 : ready", "m2 await-ready 2.2 0 : ready",
    "m1 census 1.1 : counted 0-1", "m2 await-ready 2.2 1 : ready", "m2 census 2.2 : counted 0-1", "m1 quit 1.1 1 : ok",
    "m1 quit 1.1 0 : ok", "m1 await-gone 1.1 1 : gone", "m1 await-gone 1.1 0 : gone", "m1 alive 2 : alive",
    "m1 leave : ok", "m2 census 2.2 : counted 0-1",
]


def replaced(program: Program) -> Tally:
    """An old worker that is killed while the new master starts: another one runs before the new workers are ready."""
    with tempfile.TemporaryDirectory() as room:
        path = pathlib.Path(room)
        (path / "waits").write_text(WAITS.replace("MASTER", program.path))
        (path / "waits").chmod(0o755)
        with Lasting(program, 2, room, 1024, runs="./waits", command=[program.path, "child"]) as master:
            master.told()
            old = sorted(master.below())
            master.process.stdin.write(b"USR2\n")
            master.process.stdin.flush()
            try:
                until("the new master", (path / "begun").exists)
                os.kill(old[0], signal.SIGKILL)
                until("the worker's end", lambda: len(master.below()) == 1)
                (path / "adopts").touch()
                until("another worker", lambda: len(master.below()) == 2)
            except BREAKS as fault:
                return checked([f"an old worker that is killed in an upgrade: {fault}"])
            found = ["the upgrade has ended before"] if "word USR2" in master.text() else []
            (path / "serves").touch()
            found += master.ended()
            text = master.text()
            patterns = program.certified(["--from", "s.toml"], text.encode(), room).stdout
    numbered = [f"{number} {call}" for number, call in enumerate(REPLACED, 1)]
    if block("USR2", *numbered, "done cause 3 pid no-file") not in text:
        found.append(f"it writes {text!r}")
    if patterns != b"next\nturns nononono\n3 exit w1.1.0\nnext\n":
        found.append(f"certify gives {patterns!r}")
    return checked([f"an old worker that is killed in an upgrade: {line}" for line in found])

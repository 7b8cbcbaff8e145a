"""Workers and new masters that stop or say nothing, which the master ends after its limits."""
import contextlib
import os
import pathlib
import re
import signal
import subprocess
import tempfile
import time
from collections.abc import Callable, Iterable
from typing import Any

from gate.configs import configuration
from gate.processes import Mark
from gate.tally import Tally
from gate.waiting import until
from masters.lasting import BREAKS, LOGGED, Lasting
from masters.runs import MARK, SECONDS, Program, checked, left_by
from masters.upgrades import TURNS
from masters.wrong_answers import WORKER, options_of

# (eight times the second is the limit of a new master for a call)
SHORT = (10, 6)
# The first is longer than that of a new master: one that takes it for the second is ended before its worker is.
APART = (600, 6)
# This number of children that hang would not end in time with a limit for each, one after another.
HANG = 24


def several_stop(program: Program) -> Tally:
    """All but one worker stop before a tick, and those that run then before the end: the master goes on, and they have
    one limit together, from when they were asked on."""
    with tempfile.TemporaryDirectory() as room:
        (pathlib.Path(room) / "worker.sh").write_text(WORKER)
        command = ["sh", "worker.sh", "obeys", "each"]
        with Lasting(program, HANG + 1, room, 1024, "--verbose", *options_of(SHORT), command=command) as master:
            master.told()
            stop(master, HANG)
            master.told("tick 1")
            stop(master, HANG + 1)
            try:
                found = master.ended()
            except BREAKS as fault:
                found = [str(fault)]
            text, told = master.text(), kills(master.said())
    # (one of them is started again)
    if text.count("\ndone ") != 2 or f"\ndegraded target {HANG - 1} cause 1 " not in text:
        found.append(f"it writes {text!r}")
    wanted = ["no answer within 10 s"] * HANG + ["no end within 6 s"] * 2
    if [it.partition(": ")[2] for it in told] != wanted or len(set(told[:HANG])) != HANG:
        found.append(f"it logs that it killed {told}")
    return checked([f"workers that stop: {line}" for line in found])


# A worker that says `gone` once it is told to quit, and does not end.
STAYS = WORKER.replace("quit) echo gone; exit 0 ;;", "quit) echo gone; exec sleep 1000 ;;")


def all_stop(program: Program) -> Tally:
    """All workers stop before the end: they have one limit together."""
    return hang_at_the_end(program, "workers that all stop", WORKER, lambda master: stop(master, HANG))


def all_stay(program: Program) -> Tally:
    """All workers say `gone` at the end, and stay: they have one limit together."""
    return hang_at_the_end(program, "workers that are gone and stay", STAYS, lambda _: None)


def hang_at_the_end(program: Program, name: str, worker: str, before: Callable[[Lasting], None]) -> Tally:
    """Workers that hang once their master stops, and are told to quit."""
    with tempfile.TemporaryDirectory() as room:
        (pathlib.Path(room) / "worker.sh").write_text(worker)
        command = ["sh", "worker.sh", "obeys", "each"]
        with Lasting(program, HANG, room, 1024, "--verbose", *options_of(SHORT), command=command) as master:
            master.told()
            before(master)
            try:
                found = master.ended()
            except BREAKS as fault:
                found = [str(fault)]
            told = kills(master.said())
    return checked([f"{name}: {line}" for line in [*found, *not_all_ended(told)]])


def not_all_ended(told: list[str]) -> list[str]:
    """What is wrong where each of the workers had to be killed at the end."""
    are_all = [it.partition(": ")[2] for it in told] == ["no end within 6 s"] * HANG
    return [] if are_all else [f"it logs that it killed {told}"]


def full_disk(program: Program) -> Tally:
    """A master that can't write its first block ends. Workers that do not end with it have one limit together."""
    mark = Mark(MARK)
    with tempfile.TemporaryDirectory() as room:
        path = pathlib.Path(room)
        (path / "worker.sh").write_text(f"{WORKER}exec sleep 1000\n")
        (path / "s.toml").write_text(configuration(workers=HANG, command=["sh", "worker.sh", "obeys", "each"]))
        command = [program.path, "supervise", "--verbose", "--program", program.path, "--from", "s.toml"]
        with open("/dev/full", "wb") as full:
            how: dict[str, Any] = {"cwd": room, "stdin": subprocess.DEVNULL, "stdout": full, "env": mark.environment()}
            try:
                ended = subprocess.run([*command, *options_of(SHORT)], stderr=subprocess.PIPE, timeout=SECONDS, **how)
            except subprocess.TimeoutExpired as late:
                mark.kill()
                return checked([f"a master that can't write: {late}"])
        said, left = ended.stderr.decode().splitlines(), left_by(mark)
    found = not_all_ended(kills(said))
    if ended.returncode != 1 or said[-1:] != ["prefork: file"] or left:
        found.append(f"it ends with {ended.returncode} and {said[-1:]}, and {left} are left")
    return checked([f"a master that can't write: {line}" for line in found])


# A worker that takes a second of its own for a beat, in steps, so that a stop of the machine is no part of it.
SLOW_BEAT = WORKER.replace("tick) echo", "tick) echo >asked; for step in $(seq 10); do sleep 0.1; done; echo")


def machine_stops(program: Program) -> Tally:
    """The master and its worker stop together for longer than the limit, as where the whole machine does: the worker
    that was asked before owes no more time than it had."""
    with tempfile.TemporaryDirectory() as room:
        path = pathlib.Path(room)
        (path / "worker.sh").write_text(SLOW_BEAT)
        command = ["sh", "worker.sh", "obeys", "each"]
        with Lasting(program, 1, room, 1024, "--verbose", *options_of(SHORT), command=command) as master:
            master.told()
            master.send("tick 1")
            until("the question to the worker", (path / "asked").exists)
            stopped = [master.process.pid, *(it for it in master.mark.processes() if it != master.process.pid)]
            signal_all(stopped, signal.SIGSTOP)
            time.sleep(SHORT[0] + 2)
            signal_all(reversed(stopped), signal.SIGCONT)
            master.told()
            found, text, told = master.ended(), master.text(), kills(master.said())
    if told or "1 m1 census 1.1 : counted 0\ndone cause none " not in text:
        found.append(f"it logs that it killed {told}, and writes {text!r}")
    return checked([f"a machine that stops: {line}" for line in found])


def signal_all(processes: Iterable[int], signal_number: int) -> None:
    """Sends a signal to processes, in this order; some may have ended."""
    for number in processes:
        with contextlib.suppress(ProcessLookupError):
            os.kill(number, signal_number)


def kills(said: list[str]) -> list[str]:
    """Whom a master logged as killed, and why, in order."""
    found = [re.fullmatch(re.escape(LOGGED) + r"killed (.*), process \d+: (.* within \d+ s)", line) for line in said]
    return [f"{it[1]}: {it[2]}" for it in found if it]


def stop(master: Lasting, count: int) -> None:
    """Stops the first workers of a master."""
    workers = sorted(number for number, words in master.mark.processes().items() if words[:2] == ["sh", "worker.sh"])
    for number in workers[:count]:
        os.kill(number, signal.SIGSTOP)


def is_before(said: list[str], first: str, second: str) -> bool:
    """Whether a line of the log that begins so is before one that begins otherwise."""
    places = [next((place for place, line in enumerate(said) if line.startswith(LOGGED + it)), -1) for it in (first, second)]
    return 0 <= places[0] < places[1]


# The second version of a worker is never ready.
NEVER_READY = WORKER.replace(
    "worker) start=${rest##* } ;;", 'worker) start=${rest##* }; case $rest in 1.1*) line=none ;; esac ;;'
)


def never_ready(program: Program) -> Tally:
    """A reload to a version that says nothing is rolled back."""
    with tempfile.TemporaryDirectory() as room:
        (pathlib.Path(room) / "worker.sh").write_text(NEVER_READY)
        command = ["sh", "worker.sh", "hangs", "go"]
        with Lasting(program, 1, room, 1024, "--verbose", *options_of(SHORT), command=command) as master:
            master.told("HUP")
            found = master.ended()
            patterns = program.certified(["--from", "s.toml"], master.text().encode(), room).stdout
            said = master.said()
    if patterns != b"next\n2 exit w1.2.0\nnext\n":
        found.append(f"certify gives {patterns!r}")
    if kills(said) != ["worker 1.2 0: not ready within 6 s"] or not is_before(said, "killed worker 1.2 0", "HUP: rolled-back"):
        found.append(f"it logs {said}")
    return checked([f"a version that is never ready: {line}" for line in found])


# A program whose new masters, or the workers of those, say nothing.
WRAPPER = """\
#!/bin/sh
case $1 in
    adopt) [ "$SILENT" = adopt ] && exec sleep 1000; exec "$MASTER" adopt --program "$0" ;;
    child) exec sh worker.sh hangs "$SILENT" ;;
esac
"""
# Who says nothing, the pattern of the upgrade, and whom the old master logs as killed: a new master logs nothing.
SILENT_UPGRADES: list[tuple[str, str, list[str]]] = [
    ("adopt", "2 exit m2", ["master 2: not ready within 6 s"]),
    ("go", f"{TURNS}5 exit w2.2.0", []),
]


def silent_upgrade(program: Program, silent: str, pattern: str, logged: list[str]) -> Tally:
    """An upgrade to a master that says nothing, or whose worker says nothing at a line, is rolled back. The new master
    has the old one's limits, each as what it is."""
    with tempfile.TemporaryDirectory() as room:
        path = pathlib.Path(room)
        (path / "worker.sh").write_text(WORKER)
        (path / "wrapper").write_text(WRAPPER)
        (path / "wrapper").chmod(0o755)
        (path / "s.toml").write_text(configuration(workers=1, retries=0, command=["sh", "worker.sh", "obeys", "each"]))
        words = ["supervise", "--verbose", "--program", "./wrapper", "--from", "s.toml", *options_of(APART)]
        more = {"SILENT": silent, "MASTER": program.path, "PATH": os.environ["PATH"]}
        ended = program.run([word.encode() for word in words], b"USR2\n", room, more)
        said = program.certified(["--from", "s.toml"], ended.output, room)
    found = []
    if (ended.status, kills(ended.errors.decode().splitlines()), ended.left) != (3, logged, []):
        found.append(f"it ends with {ended.status}, {ended.errors!r}, {ended.left}, {ended.output!r}")
    if said.stdout.decode() != f"next\n{pattern}\nnext\n":
        found.append(f"certify gives {said.stdout!r}, {said.stderr!r} of {ended.output!r}")
    return checked([f"an upgrade whose {silent} says nothing: {line}" for line in found])

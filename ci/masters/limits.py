"""Masters at the limits of descriptors, pid files, and what a master that ends or is killed leaves."""
import os
import pathlib
import re
import tempfile

from gate.tally import Tally
from gate.waiting import comes, until
from masters.lasting import BREAKS, Attending, Lasting, is_zombie
from masters.runs import SECONDS, Program, checked, left_by
from masters.wrong_answers import WORKER

# As many as fit under the usual limit of descriptors, old and new ones of a reload side by side.
MANY = 200
# No process has this number: it is above the most that Linux allows.
NOBODY = 4194305


def many_workers(program: Program) -> Tally:
    """Two reloads of 200 workers."""
    with tempfile.TemporaryDirectory() as room, Lasting(program, MANY, room, 1024) as master:
        master.told("HUP", "HUP")
        found, waited_for = [], master.zombies()
        if waited_for > MANY:
            found.append(f"{waited_for} workers have ended and are not waited for")
        found += master.ended()
        if master.text().count("\ndone ") != 4:
            found.append("a reload is not done")
    return checked([f"two reloads of {MANY} workers: {line}" for line in found])


def few_descriptors(program: Program) -> Tally:
    """More workers than the master has descriptors for."""
    with tempfile.TemporaryDirectory() as room, Lasting(program, 16, room, 24) as master:
        master.told("tick 1")
        found = master.ended()
        if " : again\n" not in master.text() or "\ndegraded target " not in master.text():
            found.append(f"no fork is refused: {master.text()!r}")
    return checked([f"16 workers under 24 descriptors: {line}" for line in found])


def killed(program: Program, words: list[str]) -> Tally:
    """A master that ends at once takes all with it."""
    with tempfile.TemporaryDirectory() as room, Lasting(program, 3, room, 1024) as master:
        master.told(*words)
        below = len(master.mark.processes()) - 1
        master.process.kill()
        master.process.wait()
        left = left_by(master.mark)
    found = [] if below >= 3 and not left else [f"{below} ran below it, and {left} are left"]
    return checked([f"a master that is killed after {words}: {line}" for line in found])


def killed_asking(program: Program, question: int) -> Tally:
    """A master that is ended at a question, with three workers of each master that has some then."""
    with tempfile.TemporaryDirectory() as room, Attending(program, 3, room) as master:
        try:
            master.reaches(question)
        except BREAKS as fault:
            return checked([f"a master that is killed at question {question}: {fault}"])
        # (the new master, with the workers of both or its own alone; old ones that said `gone` may still be ending)
        wanted = (7, 4)[question - 1]
        is_met, below = comes(lambda: len(master.mark.processes()) - 1 == wanted), len(master.mark.processes()) - 1
        master.process.kill()
        master.process.wait()
        left = left_by(master.mark)
    found = [] if is_met and not left else [f"{below} ran below it, and not {wanted}; {left} are left"]
    return checked([f"a master that is killed at question {question}: {line}" for line in found])


def read_anew(program: Program) -> Tally:
    """A reload takes up what its file says then."""
    found = []
    with tempfile.TemporaryDirectory() as room, Lasting(program, 1, room, 1024) as master:
        files = ("workers = 3\n", "census 1.2 : counted 0-2\ndone "), ("workers = \n", "refused C1\n")
        for settings, wanted in files:
            (master.room / "s.toml").write_text(settings)
            master.told("HUP", "USR1")
            if wanted not in master.text():
                found.append(f"with {settings!r} it writes {master.text()!r}")
        master.process.communicate(timeout=SECONDS)
    return checked([f"a reload of a file that changed: {line}" for line in found])


def command_of(number: int) -> list[bytes]:
    try:
        return pathlib.Path(f"/proc/{number}/cmdline").read_bytes().split(b"\0")[1:2]
    except OSError:
        return []


def second_start(program: Program, room: str) -> tuple[int | None, bytes, bytes]:
    """What comes of a start of a master under the same configuration."""
    ended = program.run([b"supervise", b"--program", b"PROGRAM", b"--from", b"s.toml"], b"QUIT\n", room)
    return ended.status, ended.output, ended.errors


def taken_pid_file(program: Program) -> Tally:
    """The pid file of a master that runs, or of the new one after an upgrade, is that of no other one, which leaves it
    as it is. That of one that was killed is taken over, also while nobody has waited for it."""
    found = []
    with tempfile.TemporaryDirectory() as room:
        path = pathlib.Path(room) / "a.pid"
        with Lasting(program, 1, room, 1024, pid=str(path)) as master:
            for words in (list[str](), ["USR2"]):
                master.told(*words)
                reigns = path.read_text()
                second = second_start(program, room)
                if second != (1, b"", f"prefork: running {reigns}".encode()) or path.read_text() != reigns:
                    found.append(f"a second start after {words} gives {second}, and the file has {path.read_text()!r}")
            master.told("HUP")
            found += master.ended()
            if master.text().count("\ndone ") != 4 or path.exists():
                found.append(f"the first one writes {master.text()!r}")
        with Lasting(program, 1, room, 1024, pid=str(path)) as master:
            master.told()
            master.process.kill()
            until("its end", lambda: is_zombie(master.process.pid, os.getpid()))
            left = path.read_text()
            third = second_start(program, room)
            if left != f"{master.process.pid}\n" or third[0] != 0 or path.exists():
                found.append(f"a start after a killed master, whose file has {left!r}, gives {third}")
    return checked([f"the pid file of another master: {line}" for line in found])


def pid_file(program: Program) -> Tally:
    """Whose number the pid file has, before and after an upgrade. A file that was there is replaced, and not written over."""
    found = []
    with tempfile.TemporaryDirectory() as room:
        path = pathlib.Path(room) / "a.pid"
        path.write_text(f"{NOBODY}\n")
        with open(path) as stale, Lasting(program, 2, room, 1024, pid=str(path)) as master:
            master.told()
            if path.read_text() != f"{master.process.pid}\n" or stale.read() != f"{NOBODY}\n":
                found.append(f"the master is {master.process.pid}, and its file has {path.read_text()!r}")
            master.told("USR2", "HUP")
            new = path.read_text()
            if not new.endswith("\n") or command_of(int(new)) != [b"adopt"] or int(new) not in master.mark.processes():
                found.append(f"after an upgrade the file has {new!r}")
            beside = sorted(file.name for file in path.parent.glob("a.pid?*"))
            found += [f"files are left beside it: {beside}"] if beside else []
            found += master.ended()
            found += ["it is left"] if path.exists() else []
    return checked([f"a pid file: {line}" for line in found])


def flushing(program: Program) -> Tally:
    """Workers that have said `gone` are waited for, however long they take to end."""
    ends = WORKER.replace("quit) echo gone; exit 0 ;;", "quit) echo gone; sleep 0.5; echo flushed >>flushed; exit 0 ;;")
    with tempfile.TemporaryDirectory() as room:
        (pathlib.Path(room) / "worker.sh").write_text(ends)
        with Lasting(program, 3, room, 1024, command=["sh", "worker.sh", "obeys", "each"]) as master:
            master.told("tick 1")
            found = master.ended()
            flushed = (master.room / "flushed").read_text() if (master.room / "flushed").exists() else ""
            found += [] if flushed == "flushed\n" * 3 else [f"of three workers {flushed.count('flushed')} ended by themselves"]
    return checked([f"workers that flush: {line}" for line in found])


def late_at_quit(program: Program) -> Tally:
    """Workers that are late when they are told to quit are killed, and their ends are waited for."""
    with tempfile.TemporaryDirectory() as room:
        (pathlib.Path(room) / "worker.sh").write_text(WORKER)
        with Lasting(program, 3, room, 1024, command=["sh", "worker.sh", "says", "quit"]) as master:
            master.told("USR2")
            found = [f"{master.zombies()} are not waited for"] if master.zombies() else []
            killed = master.text().count(" : late\n"), len(re.findall(r" m1 kill 1\.1 \d : ok\n", master.text()))
            found += [] if killed == (3, 3) else [f"{killed} are late and killed: {master.text()!r}"]
            found += master.ended()
    return checked([f"workers that are late: {line}" for line in found])

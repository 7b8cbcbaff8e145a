"""The cases of injected errors, and what each did to a service under load."""
import collections
import concurrent.futures
import contextlib
import dataclasses
import functools
import pathlib
import random
import re
import tempfile
import time
import zlib
from collections.abc import Callable, Iterable, Iterator
from typing import Any

from gate.tally import Tally
from gate.waiting import Wrong, until

from .errors import errors_of
from .target import CLIENTS, DROPPED, UNANSWERED, WORKERS, Target, Tree, killed_in, slow_answer
from .tracing import LISTS, Calls, Fault, Tracer, injected_in, text_of

RELOAD, UPGRADE, STOP = "reload", "upgrade", "stop"
# Who is traced while it runs, and what is started under strace.
RUNNING = ("serve", "watch", "keeper", "master")
STARTED = {RELOAD: ("launch", "activate", "read"), UPGRADE: ("launch", "activate", "new-master"), STOP: ()}
WRAPPERS = {"launch": "launch", "activate": "activate", "read": "read", "new-master": "master"}
# A fault in one of these costs a worker, with the requests that it has.
OF_WORKERS = ("activate", "wsgi")
# Cases of one service: each upgrade leaves an old master.
MOST_CASES = {RELOAD: 8, UPGRADE: 4, STOP: 1}
# Calls whose failure leaves a file: nothing else is left where one of these has failed. (A folder is read by a copy of its
# descriptor, which fcntl makes.)
OF_FILES = re.compile(r"unlink|rmdir|rename|openat|getdents|fcntl")
# A call by which a master hears a worker, or tells it something: where it fails, the master takes the worker for ended.
TO_WORKER = re.compile(r"(?:read|write)\((?:[3-9]|\d\d)")


@dataclasses.dataclass(frozen=True)
class Case:
    """A fault in a process of a role, while a word of a kind is carried out."""

    role: str
    phase: str
    fault: Fault

    def __str__(self) -> str:
        return f"{self.role}, {self.phase}, {self.fault}"


@dataclasses.dataclass
class Row:
    """What a case did."""

    case: Case
    where: str = ""
    words: list[str] = dataclasses.field(default_factory=list)
    lost: int = 0
    began: float = 0.0
    ended: float = 0.0
    wrong: list[str] = dataclasses.field(default_factory=list)
    # Whether the service said that a worker was killed.
    has_killed: bool = False

    def __str__(self) -> str:
        what = "not reached" if not self.where else "healed" if not self.wrong else "WRONG"
        return f"{self.case} | {what} | {', '.join(self.words)} | {self.lost} lost | {self.where[:90]}"


@contextlib.contextmanager
def traced(target: Target, role: str, options: list[str], log: pathlib.Path) -> Iterator[None]:
    """Traces the process of a role, or the next program of a kind that is started."""
    if role in WRAPPERS:
        armed = target.room / f"armed.{WRAPPERS[role]}"
        (target.room / f"log.{WRAPPERS[role]}").unlink(missing_ok=True)
        (target.room / "options").write_text(" ".join(options))
        (target.room / "options").rename(armed)
        try:
            yield
        finally:
            armed.unlink(missing_ok=True)
            with contextlib.suppress(OSError):
                (target.room / f"log.{WRAPPERS[role]}").rename(log)
        return
    # (one that the last fault has ended is started again after a moment)
    tracer = Tracer(until(f"a process that is {role}", lambda: target.process_of(role)), options, log)
    try:
        yield
    finally:
        tracer.end()


def words_of(target: Target, phase: str) -> list[str]:
    """Says the words of a phase; what came of each."""
    said = [target.told("USR2" if phase == UPGRADE else "HUP"), target.told("status"), target.told("tick")]
    return [str(one) for one in said]


def stop(target: Target) -> list[str]:
    """Stops a service with a slow request on its way, which is answered. Who is dropped before its word is heard says it
    again."""
    with concurrent.futures.ThreadPoolExecutor(1) as pool:
        slow = pool.submit(slow_answer, target.address)
        time.sleep(0.3)
        said = target.told("QUIT")
        if said.report() == DROPPED and target.status():
            said = target.told("QUIT")
        answer = slow.result()
    return [str(said), "slow" if answer.startswith("version ") else f"slow: {answer!r}"]


# What runs call.


def recorded(tree: Tree, python: str | None) -> dict[tuple[str, str], Calls]:
    """The calls of each role in each phase, as strace lists them in a run without a fault."""
    found: dict[tuple[str, str], Calls] = {}
    with tempfile.TemporaryDirectory(prefix="faults-") as room:
        target = Target(tree, pathlib.Path(room), python)
        try:
            target.begin()
            for phase in (RELOAD, UPGRADE, STOP):
                roles = ["wsgi"] if python else [role for role in RUNNING if target.process_of(role)]
                roles += [] if python else STARTED[phase]
                record(target, phase, roles, found)
        finally:
            target.close()
    return found


def record(target: Target, phase: str, roles: list[str], found: dict[tuple[str, str], Calls]) -> None:
    logs = {role: target.room / f"calls.{phase}.{role}" for role in roles}
    with contextlib.ExitStack() as tracers:
        for role, log in logs.items():
            tracers.enter_context(traced(target, role, LISTS, log))
        if phase == STOP:
            target.end_load()
            stop(target)
            target.serve.wait(60)
        else:
            words_of(target, phase)
            # (the workers of before finish, and the adapter that was followed is told to quit)
            target.told("HUP")
    for role, log in logs.items():
        text = text_of(log)
        # What is started becomes another program: the calls of that are its own.
        is_until = role == "launch"
        found[role, phase] = Calls(text.split("execve(")[1] if is_until and "execve(" in text else text)


def cases_of(calls: dict[tuple[str, str], Calls]) -> list[Case]:
    """Each error of each call at each of its places."""
    return [
        Case(role, phase, Fault(call, error, place))
        for (role, phase), found in calls.items() for call, places in found.places.items()
        for error in errors_of(call) for place in places
        if not (call == "execve" and role in WRAPPERS)
    ]


def part(cases: Iterable[Case], number: int, count: int) -> list[Case]:
    """The cases of a part. A case is in one part whatever the others are: two runs need not list the same calls."""
    return [case for case in cases if zlib.crc32(str(case).encode()) % count == number - 1]


def batches(cases: Iterable[Case]) -> list[list[Case]]:
    """Cases that one service can have one after another."""
    found: dict[tuple[str, str], list[Case]] = collections.defaultdict(list)
    for case in cases:
        found[case.role, case.phase].append(case)
    return [
        of_one[at : at + MOST_CASES[phase]]
        for (_, phase), of_one in found.items() for at in range(0, len(of_one), MOST_CASES[phase])
    ]


def sampled(cases: list[Case], count: int, seed: int) -> list[Case]:
    """Some cases, by chance, of each role and phase alike."""
    found: dict[tuple[str, str], list[Case]] = collections.defaultdict(list)
    for case in random.Random(seed).sample(cases, len(cases)):
        found[case.role, case.phase].append(case)
    turns = [case for turn in zip_all(list(found.values())) for case in turn]
    return turns[:count]


def zip_all(lists: list[list[Case]]) -> Iterator[list[Case]]:
    for at in range(max(map(len, lists), default=0)):
        yield [one[at] for one in lists if at < len(one)]


class Batch:
    """Cases in one service, one after another."""

    def __init__(self, tree: Tree, cases: list[Case], python: str | None, tell: Callable[[str], None]):
        self.tree, self.cases, self.python, self.tell = tree, cases, python, tell
        self.tally, self.rows = Tally(), list[Row]()

    def do(self) -> Tally:
        with tempfile.TemporaryDirectory(prefix="faults-") as room:
            target = Target(self.tree, pathlib.Path(room), self.python)
            try:
                target.begin()
                for number, case in enumerate(self.cases):
                    self.rows.append(self.stopped(target, case) if case.phase == STOP else self.injected(target, case, number))
                    if target.has_ended():
                        break
                self.end(target)
            except (Wrong, OSError, ValueError) as fault:
                self.tally.check([f"{self.cases[0]} and more: {fault!r}; {target.said_since(0)[-1500:]}"])
            finally:
                target.close()
        for row in self.rows:
            self.tell(str(row))
            if row.where:
                self.tally.check(row.wrong)
        return self.tally

    def injected(self, target: Target, case: Case, number: int) -> Row:
        """Injects a fault while a word is carried out, and looks whether the service heals."""
        row, place = Row(case, began=time.monotonic()), len(target.said_since(0))
        log = target.room / f"log.{number}"
        with traced(target, case.role, case.fault.options(), log):
            row.words = words_of(target, case.phase)
            if case.role in OF_WORKERS:
                row.words.append(str(target.told("HUP")))
        row.where = injected_in(log)
        row.wrong += [f"{case}: {word}" for word in row.words if word.endswith(UNANSWERED)]
        self.heal(target, row)
        row.ended, row.has_killed = time.monotonic(), killed_in(target.said_since(place))
        if row.wrong:
            row.wrong.append(f"{case}: {row.where}: {row.words}: {target.said_since(place)[-1500:]}")
        return row

    def heal(self, target: Target, row: Row) -> None:
        if target.has_ended():
            row.wrong.append(f"{row.case}: the service has ended with status {target.serve.returncode}")
            return
        if not target.waits_to_serve():
            row.wrong.append(f"{row.case}: it does not serve again: {target.told('status').text}")
        said = target.told("HUP")
        if said.report() != "done":
            row.wrong.append(f"{row.case}: the HUP after it: {said.text}")
        workers = target.status().get("workers", [])
        if len(workers) != WORKERS:
            row.wrong.append(f"{row.case}: {len(workers)} workers")

    def stopped(self, target: Target, case: Case) -> Row:
        """Injects a fault while the service stops: all ends, with a status that says whether it has gone well."""
        found, row, log = target.end_load(), Row(case, began=time.monotonic()), target.room / "log.stop"
        row.lost = found["failed"]
        with traced(target, case.role, case.fault.options(), log):
            row.words = stop(target)
            with contextlib.suppress(Exception):
                target.serve.wait(60)
        row.where, row.ended = injected_in(log), time.monotonic()
        if not target.has_ended():
            row.wrong.append(f"{case}: it does not stop")
        elif target.serve.returncode not in (0, 1):
            row.wrong.append(f"{case}: the status is {target.serve.returncode}")
        may_leave_files = bool(OF_FILES.search(case.fault.call))
        row.wrong += [f"{case}: {left}" for left in target.left() if not (left.startswith("files") and may_leave_files)]
        may_lose = case.role in OF_WORKERS or case.role == "master" and TO_WORKER.match(row.where) or killed_in(target.said_since(0))
        if "slow" not in row.words and not may_lose:
            row.wrong.append(f"{case}: {row.words[-1]}")
        if row.wrong:
            row.wrong.append(f"{case}: {row.where}: {row.words}: {target.said_since(0)[-1500:]}")
        return row

    def end(self, target: Target) -> None:
        """Which case has lost which requests; and whether the service stops, leaves nothing and is certified."""
        if target.load is not None:
            for failure in target.end_load()["failures"]:
                self.note_lost(failure)
        for row in self.rows:
            may_lose = CLIENTS if row.case.role in OF_WORKERS or row.has_killed else 0
            if row.lost > may_lose:
                row.wrong.append(f"{row.case}: {row.lost} requests were lost: {row.where}")
                self.tally.is_lost = True
        if target.has_ended():
            return
        faults = [*filter(None, [target.certified()])]
        said = target.told("QUIT")
        faults += [] if said.report() == "done" else [f"QUIT: {said.text}"]
        target.serve.wait(60)
        faults += target.left()
        self.tally.check([f"after {self.cases[0]} and more: {fault}" for fault in faults])

    def note_lost(self, failure: dict[str, Any]) -> None:
        """The case in whose time a request was lost."""
        for row in self.rows:
            if row.began - 0.5 <= failure["began"] <= row.ended:
                row.lost += 1
                return
        self.tally.check_lost([f"{self.cases[0]} and more: a request was lost between them: {failure}"])


def works_of(tree: Tree, cases: list[Case], python: str | None, tell: Callable[[str], None]) -> list[tuple[str, Callable[[], Tally]]]:
    """Pieces of work, by name."""
    return [
        (str(batch[0]), functools.partial(lambda it: Batch(tree, it, python if it[0].role == "wsgi" else None, tell).do(), batch))
        for batch in batches(cases)
    ]

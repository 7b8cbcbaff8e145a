"""The trial of the must-fail edits beside `rt ci`, each crate's once it is proved."""
import hashlib
import os
import shutil
import signal
import tempfile
import threading
import time
import traceback
from collections.abc import Callable
from typing import Any

from gate import kit
from gate.giving_way import give_way, tell
from gate.ledger import Ledger, key
from gate.refusals import Trial
from gate.spare import spare, waiting

# What a check may take, and what stays free for the proofs beside it, in bytes.
CHECK_MEMORY = 5_000_000_000
# A processor is free if this part of it was spare for these seconds, and wanted if this number of threads waited.
SPARE_PROCESSOR, SPARE_SECONDS = 0.8, 3.0
WAITING, WAITING_SECONDS = 0.5, 2.0


class Crate:
    """The edits of a crate, and which of them are to be tried first, or at all."""

    def __init__(self, built: kit.Built, edits: str) -> None:
        self.built, self.name, self.folder = built, built.name, f"{edits}/{built.name}"
        self.edits, self.bad = kit.edits_of(self.folder)
        self.key, self.is_whole, self.first, self.others = "", True, list[str](), list[str]()
        # Once its edits are tried.
        self.trial: Any = None

    def choose(self, ledger: Ledger, is_all: bool, sample: Callable[[str], bool]) -> None:
        """Decides what to try, once the libraries below are there."""
        self.key = key(self.built, self.folder)
        self.is_whole = is_all or not ledger.fits(self.name, self.key)
        left = ledger.left.get(self.name, set())
        self.first = [it for it in self.edits if base(it) in left]
        self.others = [it for it in self.edits if base(it) not in left and (self.is_whole or sample(base(it)))]

    def chosen(self) -> int:
        return len(self.first) + len(self.others)

    def left(self) -> list[str]:
        """What no run has seen refused at this text. Of a sample the ledger has that."""
        return [it for it in self.trial.untried() if self.is_whole or it in self.first]


def base(path: str) -> str:
    return path.rpartition("/")[2]


class Options:
    """What of the edits to try: all or a sample of those in the ledger, and until when."""

    def __init__(self, is_all: bool, sample: Callable[[str], bool], ends: float | None) -> None:
        self.is_all, self.sample, self.ends = is_all, sample, ends


class Sample:
    """One edit in N, other ones at each commit."""

    def __init__(self, one_in: int, seed: str) -> None:
        self.one_in, self.seed = one_in, seed

    def __call__(self, name: str) -> bool:
        return int(hashlib.sha256(f"{self.seed} {name}".encode()).hexdigest(), 16) % self.one_in == 0


class Turns:
    """Which checks run, and when. While crates are proved it is one at a time, on a processor that the proofs leave
    free: it begins once there is one, and is stopped while they want it. A low priority is not enough for that: the
    system moves other work to the processor of a check too late."""

    def __init__(
        self, ends: float | None, spare: Callable[[float], float] = spare, waiting: Callable[[float], float] = waiting,
    ) -> None:
        self.ends, self.spare, self.waiting = ends, spare, waiting
        self.is_beside, self.most, self.running = True, 1, 0
        # (one looks at a time, so that no two take the same place)
        self.looking, self.counting = threading.Lock(), threading.Lock()

    def begin(self) -> bool:
        """Waits until a check may begin: whether it may, or none may any more."""
        with self.looking:
            while not self.is_over():
                if self.running < self.most and kit.free_memory() >= CHECK_MEMORY and self.has_processor():
                    self.count(1)
                    return True
                time.sleep(0.2)
        return False

    def end(self) -> None:
        self.count(-1)

    def count(self, change: int) -> None:
        with self.counting:
            self.running += change

    def is_over(self) -> bool:
        return self.ends is not None and time.monotonic() >= self.ends

    def has_processor(self) -> bool:
        return not self.is_beside or self.spare(SPARE_SECONDS) >= SPARE_PROCESSOR

    def proofs_ended(self, most: int) -> None:
        """From now on this number of checks run side by side."""
        self.is_beside, self.most = False, most

    def watch(self) -> None:
        """Stops the check beside the proofs while these want its processor."""
        while self.is_beside:
            if self.running and self.waiting(WAITING_SECONDS) > WAITING:
                tell(signal.SIGSTOP)
                while self.is_beside and not self.has_processor():
                    # (what it has started meanwhile is stopped too)
                    tell(signal.SIGSTOP)
                tell(signal.SIGCONT)
            time.sleep(0.2)


class Trials:
    """All trials of a run, in lanes of their own that give way to the proofs."""

    def __init__(self, tree: str, edits: str, ledger: Ledger, options: Options, say: Callable[[str], None]) -> None:
        self.options, self.say, self.ledger = options, say, ledger
        self.crates = {it.name: Crate(it, edits) for it in kit.built_crates(tree)}
        self.waiting = {it.name for it in self.crates.values() if it.edits}
        self.ready, self.finished, self.turns = list[Crate](), list[Crate](), Turns(options.ends)
        self.changed = threading.Condition()
        self.lanes = [threading.Thread(target=self.lane, daemon=True) for _ in range(kit.processors())]
        self.kept = tempfile.TemporaryDirectory(prefix="edits-", ignore_cleanup_errors=True)

    def start(self) -> None:
        """Begins with the crates that are proved first."""
        give_way()
        for thread in (threading.Thread(target=self.turns.watch, daemon=True), *self.lanes):
            thread.start()

    def proofs_ended(self) -> None:
        """Beside the scripts, checks take a quarter of the processors: those of services and their loads are not many."""
        self.turns.proofs_ended(max(1, kit.processors() // 4))

    def proved(self, name: str) -> None:
        """A crate and all below it are proved: its edits can be tried."""
        if name not in self.waiting:
            return
        crate = self.crates[name]
        crate.choose(self.ledger, self.options.is_all, self.options.sample)
        with self.changed:
            self.waiting.discard(name)
            self.ready.append(crate)
            self.changed.notify_all()

    def no_more(self) -> None:
        """No further crate will be proved, and no script runs. Waits until all trials have ended."""
        self.turns.proofs_ended(kit.processors())
        with self.changed:
            self.waiting.clear()
            self.changed.notify_all()
        for lane in self.lanes:
            lane.join()

    def next_crate(self) -> Crate | None:
        """The crate to go on with: what an earlier run left, then what is due, then samples, the largest first."""
        with self.changed:
            while True:
                if self.ready:
                    crate = min(self.ready, key=lambda it: (not it.first, not it.is_whole, -it.chosen()))
                    self.ready.remove(crate)
                    return crate
                if not self.waiting:
                    return None
                self.changed.wait()

    def lane(self) -> None:
        while (crate := self.next_crate()) is not None:
            try:
                self.try_edits(crate)
            except Exception:
                # (its edits count as not tried, and those of other crates are tried all the same)
                self.say(f"the trial of {crate.name}'s edits broke off:\n{traceback.format_exc().rstrip()}")

    def try_edits(self, crate: Crate) -> None:
        started = time.monotonic()
        kept = os.path.join(self.kept.name, crate.name)
        os.mkdir(kept)
        crate.trial = Trial(crate.built, [crate.first, crate.others], kept)
        while crate.trial.left and self.turns.begin():
            try:
                crate.trial.step()
            finally:
                self.turns.end()
        shutil.rmtree(kept)
        with self.changed:
            self.finished.append(crate)
        self.tell(crate, time.monotonic() - started)

    def tell(self, crate: Crate, seconds: float) -> None:
        trial = crate.trial
        if not crate.chosen():
            return
        why = "due" if crate.is_whole else "sample"
        refused, checks = len(trial.refused), trial.checks
        left = len(crate.left())
        words = f"{crate.name}: {refused} of {len(crate.edits)} edits refused ({why}), {checks} checks, {seconds:.0f} s"
        words += f", {trial.alone_checks} alone" if trial.alone_checks else ""
        words += f", first the {len(crate.first)} that an earlier run left" if crate.first else ""
        words += f", {left} left" if left else ""
        self.say(words)
        for note in trial.notes:
            self.say(note)

    def write_ledger(self) -> None:
        """Writes down what this run has seen refused."""
        for crate in self.finished:
            if crate.trial.survived:
                self.ledger.drop([crate.name])
            else:
                self.ledger.note(crate.name, crate.key, [base(it) for it in crate.left()])
        kept = {name for name, crate in self.crates.items() if crate.edits}
        self.ledger.drop([name for name in list(self.ledger.keys) if name not in kept])
        self.ledger.write()

    def counts(self) -> "Counts":
        return Counts(self)


class Counts:
    """How many edits were refused, survived, were left, or are in the ledger."""

    def __init__(self, trials: Trials) -> None:
        edited = [it for it in trials.crates.values() if it.edits]
        self.all = sum(len(it.edits) for it in edited)
        self.bad = [path for it in trials.crates.values() for path in it.bad]
        self.refused = sum(len(it.trial.refused) for it in trials.finished)
        self.survived = [f"{it.name}/{base(path)}" for it in trials.finished for path in it.trial.survived]
        self.left = [f"{it.name}/{base(path)}" for it in trials.finished for path in it.left()]
        seen = {it.name for it in trials.finished}
        # (of a crate that is not proved, or where a trial itself failed)
        self.unreached = [f"{it.name}/{base(path)}" for it in edited if it.name not in seen for path in it.edits]
        self.by_ledger = self.all - self.refused - len(self.survived) - len(self.left) - len(self.unreached)


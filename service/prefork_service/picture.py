"""What prefork-watch knows of a service, as prefork-serve has told it and as the system says: who runs, what was done last,
and what is being done now."""
import collections
import os
import pathlib
import time
from typing import Any

from .ages import age_since
from .counted import Record
from .done import Done
from .folder import content_of, text_of
from .forms import Status
from .hard_memory import REASONS_OF_LIMITS
from .measures import Measures
from .processes import masters_of
from .progress import HAVE_ENDED, Progress, counts_of, is_newer
from .queues import Queues
from .remembering import Remembered
from .signs import Unchanged
from .state import SERVES
from .status import Moment, others_of, workers_of
from .traffic import Traffic
from .words import CHANGES, START, is_routine
from .worker_files import WorkerFiles, WorkerName

# How many words are remembered.
MOST_WORDS = 20
# How old what is told of a word to systemd may be.
LINE_SECONDS = 1.0


class Picture:
    """The status of a service, whole and in parts."""

    def __init__(self, hello: dict[str, Any]):
        self.hello, self.state, self.measures, self.queues = hello, dict[str, Any](), Measures(), Queues()
        self.folder = pathlib.Path(hello["folder"])
        self.files = WorkerFiles(self.folder / "workers", hello["process"])
        # The configuration's file, and what it had.
        self.config, self.text = Unchanged(hello["file"]), ""
        self.traffic = Traffic(self.folder / "traffic", hello["restarts"] > 0)
        self.words: collections.deque[Done] = collections.deque(maxlen=MOST_WORDS)
        # What is to be done about files whose version has not started, while the one before runs.
        self.of_files: str | None = None
        # How many workers have ended since they have passed a limit.
        self.passed: collections.Counter[str] = collections.Counter()
        self.remembered, self.far = Remembered[Status](), Progress()

    def last_word(self) -> Done | None:
        """The last word that somebody has said; the start of a master is not a word."""
        return next((done for done in reversed(self.words) if done.word != START), None)

    def runs_now(self) -> str:
        """Who serves what, in a line."""
        count, generation = len(self.state["workers"]), self.state["generation"] or "none"
        addresses = " ".join(self.state["addresses"]) or "no address"
        return f"{count} worker{'' if count == 1 else 's'} of generation {generation} at {addresses}"

    def line(self) -> str:
        """What runs and what was done last, in a line."""
        last, doing = self.last_word(), self.state["doing"]
        if doing:
            asks = f", asks question {self.state['question']}" if self.state["question"] else ""
            far = self.status(LINE_SECONDS)["progress"] if self.is_changing() else None
            return f"carries out {far['line'] if far else doing}{asks}"
        told, whole = f"; last word {last.word}: {last.report}" if last else "", self.state["whole"]
        return f"{self.runs_now() if whole['state'] == SERVES else whole['line']}{told}"

    def is_changing(self) -> bool:
        """Whether a word is being carried out of which it is told how far it is."""
        return bool(self.state["doing"]) and not is_routine(self.state["doing"])

    def failing(self) -> list[Status]:
        """The workers that fail to start."""
        now = time.monotonic()
        return [{**one, "next_try_seconds": round(max(0.0, one["due"] - now), 1)} for one in self.state["failing"]]

    def file_has_changed(self) -> bool:
        """Whether the file is another one than was accepted."""
        return bool(self.config_text() != self.state["accepted"])

    def config_text(self) -> str | None:
        """The configuration's file as it is now; nothing if it can't be read."""
        try:
            if not self.config.holds():
                self.text = text_of(pathlib.Path(self.hello["file"])).decode("latin-1")
            return self.text
        except OSError:
            self.config.sign = None
            return None

    def brief(self) -> Status:
        """The part of the status for which no process is looked at; of workers it has the numbers."""
        state, hello, last, now = self.state, self.hello, self.last_word(), time.monotonic()
        names = ("addresses", "lost_paths", "generation", "workers", "master_restarts", "keeper", "counts", "ticks", "tick_outcomes",
                 "doing", "question", "asking", "ask", "waiting", "records_waiting", "failed_starts", "preloaders", "survivors")
        return {
            "service": {"process": hello["process"], "seconds": int(now - hello["began"]),
                        **{name: hello[name] for name in ("folder", "file", "prefork", "records")}},
            **{name: state[name] for name in names if name in state},
            **state["whole"],
            "failing": [{name: one[name] for name in one if name != "due"} for one in self.failing()],
            "last": last.as_json() if last else None,
            "question_seconds": int(now - state["asked"]) if state["question"] else 0,
            "file_has_changed": self.file_has_changed(),
            "of_files": self.of_files,
            "limits_passed": {name: self.passed[name] for name in REASONS_OF_LIMITS},
            "watch": {"process": os.getpid(), "restarts": state["restarts"], "dropped": state["dropped"]},
        }

    def status(self, seconds: float = 0.0) -> Status:
        """Who runs, what was done last, and what is being done now. Many that ask at a time are told the same, and those
        that take one of some seconds ago."""
        state, done = self.state, self.last_word()
        key = (state["doing"], state["question"], state["waiting"], state["master_restarts"], state["keeper"]["restarts"],
               done and done.began, len(state.get("survivors", [])), state["generation"], *state["workers"])
        return self.remembered.get(self.looked, key, seconds)

    def progress(self, workers: list[Status], running: dict[WorkerName, int], ready: set[WorkerName]) -> Status | None:
        """How far the present word is, as far as processes show it."""
        word, began, generation = self.state["doing"], self.state.get("word_began", 0.0), self.state["generation"]
        if not word:
            return None
        counted = {(worker["generation"], worker["number"]) for worker in workers}
        others = [{"generation": one[0], "process": process} for one, process in running.items() if one not in counted]
        counts = counts_of(generation, len(self.state["workers"]), [*workers, *others], len(ready))
        return self.far.of(word, began, time.monotonic(), counts, self.goal(word), self.state["question"])

    def ready(self, running: dict[WorkerName, int]) -> set[WorkerName]:
        """The workers of the version that is tried which have noted that they are ready, and run."""
        if self.state["doing"] not in CHANGES:
            return set()
        noted = set((content_of(self.folder / "commands" / "ready") or b"").decode("latin-1").split("\n"))
        new = [(worker, process) for worker, process in running.items() if is_newer(worker[0], self.state["generation"])]
        return {worker for worker, process in new if f"{worker[0]}.{worker[1]} {process}" in noted}

    def goal(self, word: str) -> int:
        """How many workers a word is to start, as the configuration's file says; 0 where that is not known."""
        from .named import workers_in
        if word == START:
            return int(self.state["whole"]["wanted"])
        text = self.config_text() if word in CHANGES else None
        return workers_in(text.encode("latin-1")) if text else 0

    def looked(self) -> Status:
        """The same, found out anew."""
        state, running = self.state, self.files.running()
        since = self.files.since()
        beats = {int(number): moment for number, moment in state["beats"].items()}
        record = Record()
        record.generation, record.workers = state["generation"], state["workers"]

        def age_of(process: int) -> float:
            return age_since(since[process])

        workers, ready = workers_of(record, running, beats, age_of), self.ready(running)
        progress = self.progress(workers, running, ready)
        moment = Moment(
            state["doing"], progress is not None and progress["step"] == HAVE_ENDED, frozenset(ready),
            frozenset(one["worker"] for one in state["failing"]), frozenset(one["process"] for one in state.get("survivors", [])),
        )
        others = others_of(record, running, moment, age_of)
        self.add_measures(workers, others, since)
        return {
            **self.brief(), "workers": workers, "measured": self.measures.moment,
            "queues": self.queues.of({address: state["held"][address] for address in state["addresses"] if address in state["held"]}),
            "others": others,
            "progress": progress,
            "requests": self.traffic.told(),
            "masters": masters_of(state["master"], self.files.launched()) if state["master"] else [],
        }

    def add_measures(self, workers: list[Status], others: list[Status], since: dict[int, float]) -> None:
        """Notes at each worker what it takes, and what it has answered."""
        processes = [worker["process"] for worker in workers if worker["process"]]
        measured = self.measures.of({process: since[process] for process in processes})
        for worker in workers:
            found = measured.get(worker["process"])
            worker["memory"] = found.memory if found else None
            worker["processor_seconds"] = found.processor_seconds if found else None
        self.traffic.look()
        for worker in [*workers, *others]:
            worker["requests"] = self.traffic.of(worker["process"])

    def end(self) -> None:
        self.files.end()
        self.queues.end()
        self.traffic.end()

"""The status of a service in the text format that Prometheus reads."""
import functools
import os
import pathlib
from collections.abc import Iterator

from .blocks import report_of
from .folder import say
from .forms import Status
from .state import MEANINGS

METRICS_KIND = "text/plain; version=0.0.4; charset=utf-8"
# How ticks end; each has a line, so that an alert can be written before one has ended so.
TICK_OUTCOMES = ("done", "nothing", "degraded")
# How far the present word is.
PROGRESS = {
    "prefork_word_seconds": "seconds", "prefork_word_new_workers": "new", "prefork_word_wanted_workers": "wanted",
    "prefork_word_old_workers": "old", "prefork_word_step_seconds": "step_seconds",
}
# What each metric means, and its type.
METRICS = {
    "prefork_state": ("gauge", "Whether the service is in this state: serves, changes, short or stopped."),
    "prefork_workers_wanted": ("gauge", "Workers that are wanted."),
    "prefork_workers_running": ("gauge", "Workers that were counted last and run."),
    "prefork_failed_starts_total": ("counter", "Starts of workers that have failed."),
    "prefork_workers": ("gauge", "Workers that were counted last."),
    "prefork_workers_ended": ("gauge", "Workers that have ended since they were counted."),
    "prefork_worker_seconds": ("gauge", "For how long a worker has run."),
    "prefork_worker_last_beat_seconds": ("gauge", "How long ago a worker has beaten."),
    "prefork_worker_memory_bytes": ("gauge", "Memory of a worker and what it has started (PSS)."),
    "prefork_worker_processor_seconds_total": ("counter", "Processor time of a worker and what it has started."),
    "prefork_requests_total": ("counter", "Requests that workers of --wsgi have answered, by their statuses."),
    "prefork_generation_requests_total": ("counter", "The same of each generation that runs."),
    "prefork_request_seconds": ("histogram", "How long answers took, from the request's last byte on."),
    "prefork_worker_threads": ("gauge", "Threads of a worker of --wsgi."),
    "prefork_worker_threads_busy": ("gauge", "Threads of a worker of --wsgi that are at a request."),
    "prefork_access_log_lost_total": ("counter", "Lines of the access log that could not be written."),
    "prefork_limits_passed_total": ("counter", "Workers that have ended since they have passed a limit."),
    "prefork_queue_length": ("gauge", "Connections that wait at an address to be accepted."),
    "prefork_queue_limit": ("gauge", "How many connections may wait at an address."),
    "prefork_queue_dropped_total": ("counter", "Connections that were dropped at an address, as its queue was full."),
    "prefork_addresses": ("gauge", "Open addresses."),
    "prefork_masters": ("gauge", "Masters: the one that reigns, and those that upgrades have left."),
    "prefork_master_restarts_total": ("counter", "How often a master was started again."),
    "prefork_keeper_up": ("gauge", "Whether the keeper runs."),
    "prefork_keeper_restarts_total": ("counter", "How often the keeper was started again."),
    "prefork_words_total": ("counter", "Words, by how they ended."),
    "prefork_ticks_total": ("counter", "Ticks that masters have carried out, by how they ended."),
    "prefork_last_word_done": ("gauge", "Whether the last word was done."),
    "prefork_busy": ("gauge", "Whether a word is being carried out."),
    "prefork_word_seconds": ("gauge", "For how long the present word has been carried out."),
    "prefork_word_new_workers": ("gauge", "Workers that the present word has started, and that run."),
    "prefork_word_wanted_workers": ("gauge", "Workers that the present word is to start, or 0."),
    "prefork_word_old_workers": ("gauge", "Workers that run beside them."),
    "prefork_word_step_seconds": ("gauge", "For how long the present word has waited for the same."),
    "prefork_question": ("gauge", "The question that is asked, or 0."),
    "prefork_words_waiting": ("gauge", "Words that wait."),
    "prefork_file_has_changed": ("gauge", "Whether the configuration's file is another one than was accepted."),
    "prefork_records_waiting": ("gauge", "Texts of the records and the journal that could not be written yet."),
    "prefork_service_seconds": ("counter", "For how long the service has run."),
}


# What is said before the lines of a metric.
HEADS = {name: f"# HELP {name} {meaning}\n# TYPE {name} {kind}\n" for name, (kind, meaning) in METRICS.items()}
# The metric to which lines of other names belong.
PARTS_OF = {f"{name}_{part}": name for name, (kind, _) in METRICS.items() if kind == "histogram" for part in ("bucket", "sum", "count")}
# A line: its name, its value and its labels.
Line = tuple[str, float, str]


def quoted(text: str) -> str:
    escaped = text.replace("\\", r"\\").replace('"', r"\"").replace("\n", r"\n")
    return f'"{escaped}"'


@functools.lru_cache(maxsize=4096, typed=True)
def labels_of(**labels: object) -> str:
    """The labels of a line. Most are those of the time before."""
    return "{" + ",".join(f"{key}={quoted(str(label))}" for key, label in labels.items()) + "}"


def requests_of(status: Status) -> Iterator[Line]:
    """What workers of --wsgi have answered."""
    requests = status.get("requests")
    if not requests:
        return
    for kind, count in requests["classes"].items():
        yield "prefork_requests_total", count, labels_of(**{"class": kind})
    for generation, classes in requests.get("generations", {}).items():
        for kind, count in classes.items():
            yield "prefork_generation_requests_total", count, labels_of(**{"generation": generation, "class": kind})
    for bucket in requests["buckets"]:
        yield "prefork_request_seconds_bucket", bucket["count"], labels_of(le=bucket["within"])
    yield "prefork_request_seconds_bucket", requests["count"], labels_of(le="+Inf")
    yield "prefork_request_seconds_sum", requests["seconds"], ""
    yield "prefork_request_seconds_count", requests["count"], ""
    for worker in status["workers"]:
        if told := worker.get("requests"):
            labels = labels_of(generation=worker["generation"], number=worker["number"])
            yield "prefork_worker_threads", told["threads"], labels
            yield "prefork_worker_threads_busy", told["busy"], labels
    yield "prefork_access_log_lost_total", requests["lost_lines"], ""


def values_of(status: Status) -> Iterator[Line]:
    """Each metric with its value and its labels."""
    workers, last = status["workers"], status["last"]
    for state in MEANINGS:
        yield "prefork_state", int(state == status["state"]), labels_of(state=state)
    yield "prefork_workers_wanted", status["wanted"], ""
    yield "prefork_workers_running", status["running"], ""
    yield "prefork_failed_starts_total", status["failed_starts"], ""
    yield "prefork_workers", len(workers), labels_of(generation=status["generation"] or "none")
    yield "prefork_workers_ended", sum(not worker["process"] for worker in workers), ""
    for worker in workers:
        labels = labels_of(generation=worker["generation"], number=worker["number"])
        if worker["process"]:
            yield "prefork_worker_seconds", worker["seconds"], labels
        if worker["last_beat_seconds"] is not None:
            yield "prefork_worker_last_beat_seconds", worker["last_beat_seconds"], labels
    for worker in workers:
        if worker.get("memory"):
            labels = labels_of(generation=worker["generation"], number=worker["number"])
            yield "prefork_worker_memory_bytes", worker["memory"], labels
            yield "prefork_worker_processor_seconds_total", worker["processor_seconds"], labels
    yield from requests_of(status)
    for limit, count in status["limits_passed"].items():
        yield "prefork_limits_passed_total", count, labels_of(limit=limit)
    for queue in status["queues"]:
        labels = labels_of(address=queue["address"])
        yield "prefork_queue_length", queue["waiting"], labels
        yield "prefork_queue_limit", queue["most"], labels
        if queue["dropped"] is not None:
            yield "prefork_queue_dropped_total", queue["dropped"], labels
    yield "prefork_addresses", len(status["addresses"]), ""
    yield "prefork_masters", len(status["masters"]), ""
    yield "prefork_master_restarts_total", status["master_restarts"], ""
    yield "prefork_keeper_up", int(status["keeper"]["process"] is not None), ""
    yield "prefork_keeper_restarts_total", status["keeper"]["restarts"], ""
    for count in status["counts"]:
        yield "prefork_words_total", count["count"], labels_of(word=count["word"], outcome=count["outcome"])
    for outcome in (*TICK_OUTCOMES, *sorted(set(status["tick_outcomes"]) - set(TICK_OUTCOMES))):
        yield "prefork_ticks_total", status["tick_outcomes"].get(outcome, 0), labels_of(outcome=outcome)
    if last:
        yield "prefork_last_word_done", int(report_of(last["report"]).outcome in ("done", "nothing")), labels_of(word=last["word"])
    yield "prefork_busy", int(status["doing"] is not None), ""
    progress = status.get("progress") or {}
    for name, key in PROGRESS.items():
        yield name, progress.get(key, 0), ""
    yield "prefork_question", status["question"], ""
    yield "prefork_words_waiting", status["waiting"], ""
    yield "prefork_file_has_changed", int(status["file_has_changed"]), ""
    yield "prefork_records_waiting", status["records_waiting"], ""
    yield "prefork_service_seconds", status["service"]["seconds"], ""


def metrics_of(status: Status) -> str:
    """The whole text, each metric's lines together."""
    lines: dict[str, list[str]] = {name: [] for name in HEADS}
    for name, value, labels in values_of(status):
        lines[PARTS_OF.get(name, name)].append(f"{name}{labels} {value}\n")
    return "".join(part for name, found in lines.items() if found for part in (HEADS[name], *found))


class MetricsFile:
    """A file that has the metrics, for collectors that read files; it is replaced as a whole."""

    def __init__(self, path: pathlib.Path):
        self.path, self.is_short = path, False

    def write(self, text: str) -> None:
        new = self.path.with_name(f".{self.path.name}.{os.getpid()}")
        try:
            new.write_text(text)
            new.replace(self.path)
            self.is_short = False
        except OSError as fault:
            if not self.is_short:
                say(f"the metrics are not written: {self.path}: {fault.strerror}")
            self.is_short = True

    def end(self) -> None:
        """A file that stays would tell of a service that runs."""
        try:
            self.path.unlink(missing_ok=True)
        except OSError:
            pass

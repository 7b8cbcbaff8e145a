"""The status of a service: who runs, what was done last, and what is being done now."""
import dataclasses
import time
from collections.abc import Callable

from .ages import age_of
from .counted import Record
from .forms import Status
from .progress import is_newer
from .questions import line_of
from .state import times
from .worker_files import WorkerName

LEFT_BEHIND = "an upgrade has left it; it passes words on. QUIT and a new start of the service end it"


def workers_of(
    record: Record, running: dict[WorkerName, int], beats: dict[int, int], age_of: Callable[[int], float] = age_of
) -> list[Status]:
    """Each worker that was counted last; one whose process is not known has ended since."""
    found, now = [], time.monotonic()
    for number in record.workers:
        process = running.get((record.generation, number))
        age = age_of(process) if process else 0.0
        # A beat from before its start is that of another worker with this number. A beat has the whole second in which it
        # was asked for, so one of the second of the start may be either's.
        beat = max(0, int(now) - beats[number]) if number in beats and beats[number] >= now - age else None
        found.append({
            "generation": record.generation, "number": number, "process": process,
            "seconds": int(age) if process else None, "last_beat_seconds": beat,
        })
    return found


@dataclasses.dataclass(frozen=True)
class Moment:
    """Where a service is: the word that changes it, if one does, whether that goes back, the workers that have noted that they
    are ready, the numbers of those that fail to start, and the processes of those that have survived their master."""

    word: str | None = None
    is_back: bool = False
    ready: frozenset[WorkerName] = frozenset()
    failing: frozenset[int] = frozenset()
    survivors: frozenset[int] = frozenset()

    def state_of(self, worker: WorkerName, process: int, counted: str) -> str:
        """What a worker does that runs beside those of the generation that was counted last. A master tells of its calls at the
        end of a word, and a worker itself that it is ready."""
        generation, number = worker
        is_new = is_newer(generation, counted) and (bool(self.word) or not counted)
        is_more = generation == counted and (self.word == "TTIN" or number in self.failing)
        if self.is_back or process in self.survivors or not (is_new or is_more):
            return "finishes"
        return "is ready" if worker in self.ready else "starts"


def others_of(
    record: Record, running: dict[WorkerName, int], moment: Moment, age_of: Callable[[int], float] = age_of
) -> list[Status]:
    """The workers that run beside those that were counted last: they start, are ready, or finish."""
    counted, found = {(record.generation, number) for number in record.workers}, []
    for worker, process in sorted((worker, process) for worker, process in running.items() if worker not in counted):
        found.append({
            "generation": worker[0], "number": worker[1], "process": process, "seconds": int(age_of(process)),
            "state": moment.state_of(worker, process, record.generation),
        })
    return found


def shown(status: Status) -> str:
    """A status in words."""
    service, keeper, last = status["service"], status["keeper"], status["last"]
    lines = [
        f"service     process {service['process']}, for {service['seconds']} s, in {service['folder']}",
        f"state       {status['line']}",
        *map(shown_failing, status["failing"]),
        f"addresses   {' '.join(status['addresses']) or 'none'}",
        *(f"removed     {path}: nobody can connect until HUP or USR2" for path in status.get("lost_paths", [])),
        f"generation  {status['generation'] or 'none'}, {workers(len(status['workers']))}",
        *map(shown_worker, status["workers"]),
        *map(shown_other, status["others"]),
        *shown_survivors(status.get("survivors", [])),
        *map(shown_queue, status.get("queues", [])),
        *shown_requests(status.get("requests")),
        *shown_masters(status["masters"], status["master_restarts"]),
        f"keeper      process {keeper['process'] or 'none'}, started again {times(keeper['restarts'])}",
        *map(shown_preloader, status.get("preloaders", [])),
        f"last word   {last['word']} at {last['at']}: {last['report']}" if last else "last word   none",
        *(f"because     {why}" for why in (last["reasons"] if last else [])),
        f"now         {shown_doing(status)}",
    ]
    if status.get("of_files"):
        lines.append(f"files       {status['of_files']}")
    if status["file_has_changed"]:
        lines.append("file        has changed since it was accepted; HUP reads it")
    return "".join(f"{line}\n" for line in lines)


def shown_brief(status: Status) -> str:
    """A status in short in words."""
    service = status["service"]
    return "".join(f"{line}\n" for line in (
        f"service     process {service['process']}, for {service['seconds']} s, in {service['folder']}",
        f"state       {status['line']}",
        f"addresses   {' '.join(status['addresses']) or 'none'}",
        f"generation  {status['generation'] or 'none'}, {workers(len(status['workers']))}",
        f"master      process {status['master'] or 'none'}, started again {times(status['master_restarts'])}",
        f"keeper      process {status['keeper']['process'] or 'none'}, started again {times(status['keeper']['restarts'])}",
        f"now         {'carries out ' + status['doing'] if status['doing'] else 'waits for words'}, {status['waiting']} more wait",
    ))


def shown_preloader(preloader: Status) -> str:
    state = "its last workers finish" if preloader["is_leaving"] else "has loaded" if preloader["is_loaded"] else "loads"
    return f"preloader   process {preloader['process']}, {state}"


def shown_worker(worker: Status) -> str:
    if not worker["process"]:
        return f"worker {worker['number']:<4} has ended"
    beat = worker["last_beat_seconds"]
    told = f"beat {beat} s ago" if beat is not None else "no beat yet"
    memory = f", {worker['memory'] / 1e6:.0f} MB" if worker.get("memory") else ""
    told += f"{memory}{shown_threads(worker.get('requests'))}"
    return f"worker {worker['number']:<4} process {worker['process']}, for {worker['seconds']} s, {told}"


def shown_threads(requests: Status | None) -> str:
    return f", {requests['busy']} of {requests['threads']} threads busy" if requests else ""


def shown_requests(requests: Status | None) -> list[str]:
    """What workers of --wsgi have answered."""
    if not requests:
        return []
    count, failed = requests["count"], requests["classes"]["5xx"]
    mean = f", {1000 * requests['seconds'] / count:.0f} ms on average" if count else ""
    lost = f", {requests['lost_lines']} lines of the access log are lost" if requests["lost_lines"] else ""
    return [f"requests    {count} answered, {failed} of them with 5xx{mean}, {requests['busy']} of {requests['threads']} threads busy{lost}"]


def shown_queue(queue: Status) -> str:
    dropped = f", {queue['dropped']} were dropped" if queue["dropped"] else ""
    return f"queue       {queue['address']}: {queue['waiting']} of at most {queue['most']} connections wait{dropped}"


def shown_other(worker: Status) -> str:
    return f"worker {worker['generation']}.{worker['number']} process {worker['process']}, for {worker['seconds']} s, {worker['state']}"


def shown_survivors(survivors: list[Status]) -> list[str]:
    """How many workers of a dead master serve on."""
    named = ", ".join(f"process {one['process']}" for one in survivors)
    return [f"survivors   {workers(len(survivors))} of a master that has died: {named}, until others are ready"] if survivors else []


def shown_failing(one: Status) -> str:
    return f"next try    worker {one['worker']} in {one['next_try_seconds']:.0f} s: it has failed {times(one['failed'])}, {one['reason']}"


def shown_masters(masters: list[int], restarts: int) -> list[str]:
    old = [f"old master  process {process}: {LEFT_BEHIND}" for process in masters[:-1]]
    reigning = f"process {masters[-1]}" if masters else "none runs"
    return [f"master      {reigning}, started again {times(restarts)}", *old]


def shown_doing(status: Status) -> str:
    progress = status.get("progress")
    doing = f"carries out {progress['line'] if progress else status['doing']}" if status["doing"] else "waits for words"
    asks = f", {asked(status)}" if status["question"] else ""
    return f"{doing}{asks}, {status['waiting']} more wait" if status["waiting"] else f"{doing}{asks}"


def asked(status: Status) -> str:
    """A question, since when it is asked, and what to type."""
    question = line_of(status["question"]).strip()
    return f"{question}, for {status['question_seconds']} s: type prefork-ctl go, or prefork-ctl back"


def workers(count: int) -> str:
    return "1 worker" if count == 1 else f"{count} workers"

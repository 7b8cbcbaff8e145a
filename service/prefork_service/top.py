"""What runs, drawn again and again at a terminal."""
import sys
import time
from collections.abc import Callable

from .forms import Status
from .guarding import put

CLEAR_SCREEN, DRAW_SECONDS = "\033[H\033[2J", 1.0


def shares(status: Status, before: Status | None) -> dict[int, float]:
    """Which part of a processor each worker took between two measures, by its process."""
    passed = status["measured"] - before["measured"] if before else 0.0
    if not before or passed <= 0:
        return {}
    old = {worker["process"]: worker["processor_seconds"] for worker in before["workers"] if worker["process"]}
    return {
        worker["process"]: max(0.0, worker["processor_seconds"] - old[worker["process"]]) / passed
        for worker in status["workers"]
        if worker["processor_seconds"] is not None and old.get(worker["process"]) is not None
    }


def drawn(status: Status, parts: dict[int, float]) -> str:
    """A status as a table."""
    counts = f"{'busy':>9}{'answered':>10}" if status.get("requests") else ""
    lines = [status["line"], f"{'worker':<10}{'process':>9}{'age, s':>9}{'cpu, %':>9}{'MB':>9}{counts}"]
    for worker in [*status["workers"], *status["others"]]:
        name, process = f"{worker['generation']}.{worker['number']}", worker["process"]
        part = f"{100 * parts[process]:.1f}" if process in parts else "-"
        memory = f"{worker['memory'] / 1e6:.0f}" if worker.get("memory") else "-"
        state = worker.get("state", "" if process else "has ended")
        answered = answered_by(worker) if counts else ""
        lines.append(f"{name:<10}{process or '-':>9}{worker['seconds'] or 0:>9}{part:>9}{memory:>9}{answered}  {state}".rstrip())
    for queue in status["queues"]:
        lines.append(f"{queue['address']}: {queue['waiting']} of {queue['most']} wait, {queue['dropped']} dropped")
    return "".join(f"{line}\n" for line in lines)


def answered_by(worker: Status) -> str:
    """How many threads of a worker are busy, and how many requests it has answered."""
    requests = worker.get("requests")
    return f"{requests['busy']:>4} of {requests['threads']:>1}{requests['count']:>10}" if requests else f"{'-':>9}{'-':>10}"


def show(ask: Callable[[], Status]) -> int:
    """Draws up to ^C at a terminal, and once elsewhere."""
    measured: Status | None = None
    parts: dict[int, float] = {}
    try:
        while True:
            status = ask()
            if measured is None or status["measured"] != measured["measured"]:
                parts, measured = shares(status, measured), status
            is_terminal = sys.stdout is not None and sys.stdout.isatty()
            put((CLEAR_SCREEN if is_terminal else "") + drawn(status, parts))
            if not is_terminal:
                return 0
            time.sleep(DRAW_SECONDS)
    except KeyboardInterrupt:
        return 0

"""Parts of the page of a service (view.py): its processes in a table, the calls of a word, and what the next reload would
do."""
import html
import pathlib
import subprocess
import tempfile
from collections.abc import Sequence

from .blocks import block_of
from .burying import started
from .done import Done
from .forms import Status
from .rehearsing import rehearsal
from .state import times
from .status import LEFT_BEHIND

KIND = "text/html; charset=utf-8"
# The calls of a word that are drawn, and the lines of a plan that are shown.
MOST_DRAWN, MOST_PLAN_LINES = 300, 400


def text(value: object) -> str:
    return html.escape(str(value))


def row(*cells: object) -> str:
    """A row of a table; a whole number is set to the right, and so is one that is not there."""
    told = (f"<td>{cell}</td>" if isinstance(cell, str) else f'<td class="number">{"none" if cell is None else cell}</td>' for cell in cells)
    return f"<tr>{''.join(told)}</tr>"


def table(name: str, head: Sequence[str], rows: Sequence[str]) -> str:
    titles = "".join(f'<th scope="col">{text(title)}</th>' for title in head)
    return f'<table aria-label="{text(name)}"><tr>{titles}</tr>{"".join(rows)}</table>'


def workers_table(status: Status) -> str:
    """Workers by generation."""
    rows = []
    for worker in status["workers"]:
        beat = worker["last_beat_seconds"]
        told = f"beat {beat} s ago" if beat is not None else "no beat yet"
        process = worker["process"] or None
        told = told if process else "has ended"
        rows.append(row(text(worker["generation"]), worker["number"], process, worker["seconds"] if process else None, told))
    for worker in status["others"]:
        cells = (worker["number"], worker["process"], worker["seconds"], text(worker["state"]))
        rows.append(row(text(worker["generation"]), *cells))
    for one in status["failing"]:
        told = f"has failed {times(one['failed'])}: {text(one['reason'])}; next try in {one['next_try_seconds']:.0f} s"
        rows.append(row("", one["worker"], None, None, told))
    if not rows:
        return "<p>No worker runs.</p>"
    return table("workers", ("generation", "worker", "process", "age, s", "state"), rows)


def said(errors: dict[str, list[str]]) -> str:
    """What workers said last that did not start."""
    return "".join(f"<p>worker {text(name)} said last:</p><pre>{text(chr(10).join(lines))}</pre>" for name, lines in errors.items())


def masters_list(status: Status) -> str:
    masters = status["masters"]
    reigning = f"process {masters[-1]}" if masters else "none runs"
    told = LEFT_BEHIND if not status["doing"] else "it leaves at the end of the upgrade"
    old = "".join(f"<li>old master, process {process}: {text(told)}</li>" for process in masters[:-1])
    keeper = status["keeper"]
    return f"<ul><li>master: {reigning}, started again {status['master_restarts']} times</li>{old}" \
        f"<li>keeper: process {keeper['process'] or 'none'}, started again {keeper['restarts']} times</li></ul>"


def drawn(done: Done) -> str:
    """The calls of a word, one box each; those that went wrong are red, and the cause has a border."""
    calls = block_of(done.block).calls
    boxes = []
    for call in calls[:MOST_DRAWN]:
        kinds = [*([] if call.is_plain else ["wrong"]), *(["cause"] if call.text == done.cause else [])]
        kind = f' class="{" ".join(kinds)}"' if kinds else ""
        boxes.append(f'<i{kind} title="{text(call.text)}"></i>')
    more = f"<span>and {len(calls) - MOST_DRAWN} more</span>" if len(calls) > MOST_DRAWN else ""
    return f'<div class="calls">{"".join(boxes)}{more}</div>'


class NextPlan:
    """The plan of the next HUP, made ahead by a process of its own whenever what it rests on has changed."""

    def __init__(self) -> None:
        self.key: object = None
        self.process: subprocess.Popen[bytes] | None = None
        self.output = tempfile.TemporaryFile()
        self.text = "It is being made.\n"

    def tend(self, status: Status) -> None:
        """Makes a plan if the last one is of other things, and takes one that is made."""
        if self.process:
            if self.process.poll() is None:
                return
            self.take()
        key = self.key_of(status)
        if key == self.key or not status["generation"] or status["doing"]:
            return
        self.key = key
        self.output.seek(0)
        self.output.truncate()
        try:
            command = rehearsal("plan", "HUP", status, [])
            self.process = started(command, stdin=subprocess.DEVNULL, stdout=self.output, stderr=self.output)
        except OSError as fault:
            self.text = f"It is not made: {fault}\n"

    def key_of(self, status: Status) -> object:
        """What a plan rests on."""
        try:
            file = pathlib.Path(status["service"]["file"]).stat()
            wanted: object = (file.st_ino, file.st_mtime_ns, file.st_size)
        except OSError:
            wanted = None
        return wanted, status["generation"], len(status["workers"]), status["file_has_changed"]

    def take(self) -> None:
        self.process = None
        self.output.seek(0)
        lines = self.output.read().decode(errors="replace").splitlines()
        more = [f"and {len(lines) - MOST_PLAN_LINES} lines more"] if len(lines) > MOST_PLAN_LINES else []
        self.text = "".join(f"{line}\n" for line in lines[:MOST_PLAN_LINES] + more)

    def end(self) -> None:
        if self.process:
            self.process.kill()
            self.process.wait()
        self.output.close()

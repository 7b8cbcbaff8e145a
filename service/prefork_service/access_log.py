"""The access log of `--wsgi`: a line for each answer, in the combined form that web servers have, or as JSON.

Requests hand their lines to a thread, which writes them: no request waits for a disk. If the disk is too slow, lines are
lost and counted. A file that was renamed is opened anew at USR1.
"""
import dataclasses
import json
import os
import sys
import threading
import time
from typing import Any

COMBINED, JSON = "combined", "json"
FORMS = (COMBINED, JSON)
# How many bytes may wait for the disk, for how long lines are gathered, and how long it is waited for at USR1.
MOST_LOG_WAITING, GATHER_SECONDS, REOPEN_SECONDS = 4 << 20, 0.2, 2.0
# Others than the owner and the group have no business with the addresses of clients.
LOG_MODE = 0o640
# (those of the C language in any locale)
MONTHS = ("Jan", "Feb", "Mar", "Apr", "May", "Jun", "Jul", "Aug", "Sep", "Oct", "Nov", "Dec")
# What would end a field or a line is shown by its number.
ESCAPES = {number: f"\\x{number:02X}" for number in range(256) if not 32 <= number < 127 or chr(number) in '"\\'}


@dataclasses.dataclass(frozen=True)
class LoggedAnswer:
    """An answer: to whom, to what, and how it was."""

    client: str
    user: str
    method: str
    target: str
    version: str
    status: int
    size: int
    referer: str
    agent: str
    # How long it took since the request was there, and when it ended.
    seconds: float
    moment: float
    worker: str


def escaped(text: str) -> str:
    """A text as a field of a line; `-` if it is empty."""
    return text.encode("latin-1", "backslashreplace").decode("latin-1").translate(ESCAPES) or "-"


def whole(text: str) -> str:
    """A text of bytes as people meant it."""
    return text.encode("latin-1", "replace").decode("utf-8", "replace")


def combined(answer: LoggedAnswer) -> str:
    local = time.localtime(answer.moment)
    zone = f"{'-' if local.tm_gmtoff < 0 else '+'}{abs(local.tm_gmtoff) // 3600:02}{abs(local.tm_gmtoff) // 60 % 60:02}"
    moment = f"{local.tm_mday:02}/{MONTHS[local.tm_mon - 1]}/{local.tm_year}:{local.tm_hour:02}:{local.tm_min:02}:{local.tm_sec:02} {zone}"
    asked = f"{escaped(answer.method)} {escaped(answer.target)} HTTP/{escaped(answer.version)}" if answer.method else "-"
    return f'{escaped(answer.client)} - {escaped(answer.user)} [{moment}] "{asked}" {answer.status} {answer.size} ' \
        f'"{escaped(answer.referer)}" "{escaped(answer.agent)}"\n'


def as_json(answer: LoggedAnswer) -> str:
    told: dict[str, Any] = dataclasses.asdict(answer)
    del told["moment"]
    told = {key: whole(value) if isinstance(value, str) else value for key, value in told.items()}
    at = time.gmtime(answer.moment)
    moment = f"{time.strftime('%Y-%m-%dT%H:%M:%S', at)}.{int(answer.moment % 1 * 1000):03}Z"
    return json.dumps({"time": moment, **told, "seconds": round(answer.seconds, 6)}) + "\n"


SHAPES = {COMBINED: combined, JSON: as_json}


def fault_of(path: str) -> str | None:
    """Why lines can't be written to a file, if that is so."""
    folder = os.path.dirname(path) or "."
    if os.path.isdir(path):
        return f"{path}: it is a folder"
    if not os.path.isdir(folder):
        return f"{folder}: No such file or directory"
    is_fit = os.access(path if os.path.exists(path) else folder, os.W_OK)
    return None if is_fit else f"{path}: Permission denied"


class AccessLog:
    """The lines that wait, and the thread that writes them."""

    def __init__(self, path: str, form: str):
        self.path, self.shape = path, SHAPES[form]
        self.changed = threading.Condition()
        self.lines: list[bytes] = []
        # How many bytes wait, how many lines were lost, and how often the file is to be opened and was.
        self.waiting, self.lost, self.wanted, self.done = 0, 0, 1, 0
        self.is_writing, self.is_short, self.file = False, False, -1
        # Whether nobody waits for more lines, and whether the last line was not written whole.
        self.is_hurried, self.is_torn = False, False
        threading.Thread(target=self.run, name="access log", daemon=True).start()

    def note(self, answer: LoggedAnswer) -> None:
        line = self.shape(answer).encode()
        with self.changed:
            if self.waiting + len(line) > MOST_LOG_WAITING:
                self.lost += 1
                return
            self.lines.append(line)
            self.waiting += len(line)
            if len(self.lines) == 1:
                self.changed.notify_all()

    def run(self) -> None:
        while True:
            with self.changed:
                while not self.lines and self.done == self.wanted:
                    self.changed.wait()
                if self.done == self.wanted:
                    # Lines of the next moment are written together with these.
                    self.changed.wait_for(lambda: self.is_hurried or self.done != self.wanted, GATHER_SECONDS)
                lines, self.lines, wanted, self.is_writing = self.lines, [], self.wanted, True
            self.write(lines)
            if wanted != self.done:
                self.open()
            with self.changed:
                self.done, self.is_writing = wanted, False
                self.waiting -= sum(map(len, lines))
                self.changed.notify_all()

    def open(self) -> None:
        """Opens the file, or opens it anew."""
        if self.file >= 0:
            os.close(self.file)
        self.file = -1
        try:
            self.file = os.open(self.path, os.O_WRONLY | os.O_APPEND | os.O_CREAT | os.O_CLOEXEC | os.O_NOCTTY, LOG_MODE)
            self.is_short = False
        except OSError as fault:
            self.complain(fault)

    def write(self, lines: list[bytes]) -> None:
        """Writes lines in one piece: those of other workers come before it or after it."""
        if not lines:
            return
        if self.file < 0:
            self.open()
        text = (b"\n" if self.is_torn else b"") + b"".join(lines)
        written = 0
        try:
            while written < len(text) and self.file >= 0:
                written += os.write(self.file, text[written:])
        except OSError as fault:
            self.complain(fault)
        self.is_torn = self.is_torn and not written or written > 0 and text[written - 1 : written] != b"\n"
        with self.changed:
            self.lost += text[written:].count(b"\n")

    def complain(self, fault: OSError) -> None:
        """Says once that lines are lost, until the file is opened again."""
        if not self.is_short:
            print(f"the access log is not written: {self.path}: {fault.strerror}", file=sys.stderr, flush=True)
        self.is_short = True

    def reopen(self, seconds: float = REOPEN_SECONDS) -> None:
        """Opens the file anew. What was noted before is in the old one by then, unless the disk is too slow."""
        with self.changed:
            self.wanted += 1
            wanted = self.wanted
            self.changed.notify_all()
            self.changed.wait_for(lambda: self.done >= wanted, seconds)

    def finish(self, seconds: float) -> None:
        """Waits until all lines are written, for some seconds at most."""
        with self.changed:
            self.is_hurried = True
            self.changed.notify_all()
            self.changed.wait_for(lambda: not self.lines and not self.is_writing, seconds)

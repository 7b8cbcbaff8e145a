"""A question that answers itself: prefork-ctl runs a command of an operator in place of the operator, and its status is the answer.

The command runs beside prefork-ctl, with the rights of the user that has typed it, and never in the service. It ends
with prefork-ctl. Where prefork-ctl is killed the question stays, and an operator answers it by hand.
"""
import argparse
import dataclasses
import json
import os
import select
import shlex
import signal
import subprocess
import sys
import threading
import time
from collections.abc import Callable, Mapping
from typing import Any

from .forms import Status
from .hooks import kill
from .keys import DAY_SECONDS
from .last_lines import KEPT, lines_of
from .programs import fault_of
from .progress import is_newer
from .questions import AFTER, BACK, GO, WITHIN, Ask
from .systemd import OF_SYSTEMD
from .words import ATTENDED

# How often it is looked whether an operator has answered, and how long it is waited for the status of the service.
ANSWERING_LOOK_SECONDS, STATUS_TRIES, STATUS_PAUSE = 0.5, 3, 1.0
# How many lines of a command are shown and noted, how many bytes of it are read at a time, and how long an answer is.
MOST_SHOWN_LINES, PIECE, MOST_BYTES = 10, 65536, 4000
# Told to end, it goes back and waits for the end of the word.
ENDS = (signal.SIGTERM, signal.SIGHUP)
TOLD_TO_END = "prefork-ctl was told to end"
NO_COMMAND = "no command answers: --ask names one, or the key ask of the configuration. Answer by prefork-ctl go, or prefork-ctl back"
# The process that becomes the command: it is killed with prefork-ctl, its parent.
TIED = "import ctypes, os, sys; ctypes.CDLL(None).prctl(1, 9, 0, 0, 0); os.getppid() == int(sys.argv[1]) or os._exit(1); os.execvp(sys.argv[2], sys.argv[2:])"


def add_options(parser: argparse.ArgumentParser) -> None:
    """The options of prefork-ctl."""
    ask = "of a word that asks: run this command at each question, and answer go if its status is 0, else back"
    parser.add_argument("--ask", type=command_of, metavar="COMMAND", help=ask)
    parser.add_argument("--no-ask", action="store_true", help="of a word that asks: answer by hand, whatever the configuration says")
    parser.add_argument("--after", type=seconds_of, metavar="SECONDS", help=f"how long after the question it runs ({AFTER:g})")
    parser.add_argument("--ask-within", type=seconds_of, metavar="SECONDS", help=f"how long it may take, before the answer is back ({WITHIN:g})")


def command_of(text: str) -> tuple[str, ...]:
    """A command and its arguments, quoted as in a shell."""
    try:
        words = tuple(shlex.split(text))
    except ValueError as fault:
        raise argparse.ArgumentTypeError(f"{text}: {fault}") from fault
    why = fault_of(words[0]) if words else "it takes a command"
    if why:
        raise argparse.ArgumentTypeError(why)
    return words


def seconds_of(text: str) -> float:
    try:
        found = float(text)
    except ValueError:
        found = -1.0
    if not 0 <= found <= DAY_SECONDS:
        raise argparse.ArgumentTypeError(f"it takes seconds, at most {DAY_SECONDS}, not: {text}")
    return found


def fault_of_options(given: argparse.Namespace) -> str | None:
    """What is wrong with these options together, and with the word."""
    named = {"--ask": given.ask, "--no-ask": given.no_ask, "--after": given.after, "--ask-within": given.ask_within}
    found = [name for name, value in named.items() if value is not None and value is not False]
    if found and not asks(" ".join(given.word)):
        return f"{found[0]} is an option of a word that asks: {ATTENDED}"
    if given.ask_within == 0:
        return "argument --ask-within: it takes more than 0 seconds"
    return "--no-ask goes with no other option of a question" if given.no_ask and len(found) > 1 else None


def asks(word: str) -> bool:
    """Whether a word asks its operator."""
    return word == ATTENDED


def ask_of(given: argparse.Namespace, of_file: Status | None) -> Ask | None:
    """The command that answers: that of the command line, or of the configuration that runs; each option by itself."""
    found = of_file or {}
    command = given.ask or tuple(found.get("command", ()))
    if given.no_ask or not command:
        return None
    after, within = (one if one is not None else found.get(name) for name, one in (("after", given.after), ("within", given.ask_within)))
    return Ask(command, AFTER if after is None else after, WITHIN if within is None else within)


@dataclasses.dataclass(frozen=True)
class Verdict:
    """What a command says: the answer, why, and its last lines."""

    word: str
    why: str
    lines: tuple[str, ...] = ()


def side_of(generation: str, status: Status, addresses: list[str]) -> Status:
    """A generation at a question: its workers that run, and its addresses."""
    every = [*status["workers"], *status["others"]]
    workers = [{"number": one["number"], "process": one["process"]} for one in every if one["generation"] == generation and one["process"]]
    return {"generation": generation, "workers": workers, "addresses": addresses}


def told_of(word: str, status: Status) -> Status:
    """What a command is told of a question, as JSON on its standard input."""
    asking, old, new = status["asking"], status["generation"], ""
    for one in status["others"]:
        if is_newer(one["generation"], max_of(old, new)):
            new = one["generation"]
    return {
        "event": "question", "word": word, "folder": status["service"]["folder"], "question": status["question"], "number": asking["number"],
        "old": side_of(old, status, asking["old"]), "new": side_of(new, status, asking["new"]),
    }


def max_of(one: str, other: str) -> str:
    """The newer one of two generations; none is older than any."""
    return other if other and is_newer(other, one) else one


def variables_of(told: Status) -> dict[str, str]:
    """The same as variables of its environment."""
    found = {"WORD": told["word"], "FOLDER": told["folder"], "QUESTION": str(told["question"])}
    for side in ("old", "new"):
        one, name = told[side], side.upper()
        found[f"{name}_GENERATION"] = one["generation"]
        found[f"{name}_WORKERS"] = " ".join(str(worker["process"]) for worker in one["workers"])
        found[f"{name}_ADDRESSES"] = " ".join(one["addresses"])
    return {f"PREFORK_{name}": text for name, text in found.items()}


def begun(command: tuple[str, ...], told: Status, environment: Mapping[str, str]) -> subprocess.Popen[bytes]:
    """Starts a command, in a group of its own. Raises OSError."""
    own = {name: text for name, text in environment.items() if not name.startswith(OF_SYSTEMD)}
    text = os.memfd_create("question")
    try:
        os.write(text, json.dumps(told).encode() + b"\n")
        os.lseek(text, 0, os.SEEK_SET)
        streams: dict[str, Any] = {"stdin": text, "stdout": subprocess.PIPE, "stderr": subprocess.STDOUT, "env": own | variables_of(told)}
        return subprocess.Popen([sys.executable, "-c", TIED, str(os.getpid()), *command], start_new_session=True, bufsize=0, **streams)
    finally:
        os.close(text)


def verdict_of(ask: Ask, told: Status, end_reason: Callable[[], str], environment: Mapping[str, str] = os.environ) -> Verdict:
    """Runs a command to its end, or until it has to end: `end_reason` says why."""
    if fault := fault_of(ask.command[0]):
        return Verdict(BACK, f"the command can't be started: {fault}")
    process = begun(ask.command, told, environment)
    until, kept, why = time.monotonic() + ask.within, b"", ""
    try:
        while process.poll() is None and not why:
            kept = heard(process, kept, 0.1)
            why = end_reason() or (f"{ask.command[0]} has not ended within {ask.within:g} s, and is killed" if time.monotonic() > until else "")
    finally:
        if process.poll() is None:
            kill(process)
    lines = tuple(lines_of(heard(process, kept, 0.0))[-MOST_SHOWN_LINES:])
    assert process.stdout
    process.stdout.close()
    if why:
        return Verdict(BACK, why, lines)
    ended = f"status {process.returncode}" if process.returncode >= 0 else f"signal {-process.returncode}"
    return Verdict(BACK if process.returncode else GO, f"{ask.command[0]} has ended with {ended}", lines)


def heard(process: subprocess.Popen[bytes], kept: bytes, seconds: float) -> bytes:
    """The end of what a command has said. What it has started may have its output longer than itself."""
    assert process.stdout
    while select.select([process.stdout], [], [], seconds)[0]:
        got = os.read(process.stdout.fileno(), PIECE)
        if not got:
            time.sleep(seconds)
            break
        kept, seconds = (kept + got)[-2 * KEPT :], 0.0
    return kept


@dataclasses.dataclass(frozen=True)
class Reached:
    """A service, as prefork-ctl reaches it: its status in short and in full, and what comes of a text that is sent to it."""

    brief: Callable[[], Status]
    status: Callable[[], Status]
    send: Callable[[str], str]


class Answering:
    """Answers the questions of a word, each by a thread. `ask` is what answers them; without it a person does."""

    def __init__(self, word: str, ask: Ask | None, service: Reached, say: Callable[[str], None]):
        self.word, self.ask, self.service, self.say = word, ask, service, say
        self.thread: threading.Thread | None = None
        # Whether the question of the thread is over, and whether this process was told to end.
        self.is_past, self.was_told_to_end, self.question = threading.Event(), False, 0
        self.handlers: dict[int, Any] = {}

    def __enter__(self) -> "Answering":
        if self.ask:
            self.handlers = {number: signal.signal(number, self.go_back) for number in ENDS}
        return self

    def __exit__(self, kind: type[BaseException] | None, *_: object) -> None:
        self.end()
        for number, handler in self.handlers.items():
            signal.signal(number, handler)
        if kind is KeyboardInterrupt and self.ask:
            asks = f"question {self.question} is still asked" if self.question else "it will ask"
            self.say(f"{asks}: answer by prefork-ctl go, or prefork-ctl back")

    def go_back(self, number: int, _: Any) -> None:
        """Told to end once, it goes back at this question and at the next one; told twice, it ends."""
        signal.signal(number, signal.SIG_DFL)
        self.was_told_to_end = True

    def begin(self, line: str) -> None:
        """A question is asked in this line."""
        self.end()
        self.question = question = int(line.split()[1].rstrip(":"))
        if self.ask:
            self.is_past = threading.Event()
            self.thread = threading.Thread(target=self.answer, args=(self.ask, question, self.is_past), daemon=True)
            self.thread.start()

    def end(self) -> None:
        """The question is over, or nobody waits for the word any more: its command is ended."""
        self.is_past.set()
        if self.thread:
            self.thread.join()
            self.thread = None

    def finish(self) -> None:
        """The word has ended."""
        self.end()
        self.question = 0

    def answer(self, ask: Ask, question: int, is_past: threading.Event) -> None:
        try:
            self.answer_by(ask, question, is_past)
        except (OSError, ValueError, LookupError, TypeError) as fault:
            if not is_past.is_set():
                told = fault.strerror if isinstance(fault, OSError) else f"the service is of another version ({type(fault).__name__}: {fault})"
                self.say(f"question {question} is not answered: {told}. Answer by prefork-ctl go, or prefork-ctl back")

    def answer_by(self, ask: Ask, question: int, is_past: threading.Event) -> None:
        """Waits, runs the command, and answers this one question, unless an operator does meanwhile."""
        asking = self.service.brief()["asking"]
        if not asking or is_past.is_set():
            return
        number, looked, found = asking["number"], time.monotonic(), ""

        def end_reason() -> str:
            """Why the command has to end."""
            nonlocal looked, found
            if is_past.is_set():
                return "the question is over"
            if self.was_told_to_end:
                return TOLD_TO_END
            if time.monotonic() - looked > ANSWERING_LOOK_SECONDS:
                looked, found = time.monotonic(), "" if self.is_asked(number) else "an operator has answered"
            return found

        self.say(f"{' '.join(ask.command)} answers in {ask.after:g} s, unless an operator does before: prefork-ctl go, or prefork-ctl back")
        until, why = time.monotonic() + ask.after, ""
        while time.monotonic() < until and not (why := end_reason()):
            is_past.wait(min(ANSWERING_LOOK_SECONDS / 5, max(0.0, until - time.monotonic())))
        verdict = Verdict(BACK, why) if why else self.verdict(ask, number, end_reason)
        if is_past.is_set() or not self.is_asked(number):
            self.say(f"question {question} was answered by an operator")
            return
        self.tell(question, number, verdict)

    def verdict(self, ask: Ask, number: int, end_reason: Callable[[], str]) -> Verdict:
        """What the command says. What it is to look at has to be known."""
        for _ in range(STATUS_TRIES):
            status = self.service.status()
            if not status["asking"] or status["asking"]["number"] != number:
                return Verdict(BACK, "the question is over")
            if not status.get("brief"):
                try:
                    return verdict_of(ask, told_of(self.word, status), end_reason)
                except OSError as fault:
                    return Verdict(BACK, f"the command can't be started: {fault.strerror}")
            time.sleep(STATUS_PAUSE)
        return Verdict(BACK, "prefork-watch, which tells who runs, does not answer just now")

    def is_asked(self, number: int) -> bool:
        """Whether this very question is still asked."""
        asking = self.service.brief()["asking"]
        return bool(asking) and asking["number"] == number

    def tell(self, question: int, number: int, verdict: Verdict) -> None:
        """Answers, and tells people why. The service notes that in its journal."""
        text = "\n".join([f"{verdict.word} {number} {verdict.why}", *verdict.lines]).encode()[:MOST_BYTES].decode(errors="ignore")
        answered = self.service.send(text)
        if f"answered {question} " not in answered:
            self.say(f"question {question} was answered by an operator")
            return
        for line in (f"question {question} is answered: {verdict.word}: {verdict.why}", *(f"    {line}" for line in verdict.lines)):
            self.say(line)

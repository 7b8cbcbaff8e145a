"""prefork-watch STREAM ASKERS PROCESS

Tells what a service does, beside prefork-serve, which starts it: the page, metrics, the status in full, the reasons of failed
calls, hooks, trials, and the line that systemd shows. It gets events as lines of JSON from the socket STREAM, and those that
ask from the socket ASKERS. Nobody waits for it, and it ends with PROCESS. It is nothing to be started by hand.
"""
import json
import selectors
import signal
import socket
import sys
from typing import Any

from . import VERSION
from .answers import Answers
from .barrier import Barrier, Broken
from .blocks import block_of
from .done import Done
from .errors import take_standard
from .explaining import explained
from .feed import Message
from .folder import say
from .hard_memory import Guard, passed
from .last_lines import shown
from .lines import Lines
from .outcomes import NOBODY_SERVES, OLD_SERVES, PRELOADER_SERVES, is_broken
from .parents import end_with
from .picture import Picture
from .refusing import refused
from .showing import Showing
from .titles import set_title
from .words import CHANGES, START, STOPS, is_routine

MOST_STREAM_BYTES = 1 << 18
# The longest pause of the loop.
WATCH_PAUSE = 0.5
# Signals to a whole group, or a terminal's, are not for it: it ends with prefork-serve.
IGNORED_SIGNALS = (signal.SIGINT, signal.SIGTERM, signal.SIGHUP, signal.SIGQUIT)


class Watch:
    """The other side of what prefork-serve tells."""

    def __init__(self, stream: socket.socket, askers: socket.socket):
        self.stream, self.events, self.barrier = stream, selectors.DefaultSelector(), Barrier(say)
        # Whether something was told since the line of systemd was made.
        self.unheard, self.number, self.is_over, self.has_news = b"", 0, False, False
        self.picture: Any = None
        self.showing: Any = None
        self.lines: Any = None
        self.status_line = ""
        self.guard: Any = None
        self.answers = Answers(self, askers)
        self.events.register(stream, selectors.EVENT_READ, self.hear)

    def run(self) -> None:
        while not self.is_over:
            for key in self.barrier.select(self.events, self.barrier.duty(self.pause) or WATCH_PAUSE):
                self.barrier.event(self.events, key)
            for tend in (self.answers.tend, self.tend, sys.stderr.flush):
                self.barrier.duty(tend)
        if self.showing:
            self.showing.end()
            self.barrier.duty(self.picture.end)

    def pause(self) -> float:
        return self.answers.seconds(WATCH_PAUSE)

    def hear(self, _: socket.socket) -> None:
        try:
            got = self.stream.recv(MOST_STREAM_BYTES)
        except OSError:
            # prefork-serve has ended in the middle of something.
            got = b""
        *lines, self.unheard = (self.unheard + got).split(b"\n")
        for line in lines:
            self.barrier.duty(self.take, line)
        self.is_over = not got
        if lines:
            self.say(f"took {self.number}")

    def say(self, text: str) -> None:
        """Says something to prefork-serve, which reads it before long."""
        try:
            self.stream.sendall(f"{text}\n".encode())
        except OSError:
            self.is_over = True

    def take(self, line: bytes) -> None:
        """Takes a line. What it raises costs that line alone."""
        self.has_news = True
        told = json.loads(line)
        self.number = told.pop("n")
        kind = told.pop("kind")
        if kind == "hello":
            self.picture = Picture(told)
            self.lines = Lines(told["journal"])
            self.showing = Showing(self.events, self.picture, self.barrier)
            self.guard = Guard(self.picture.folder, told["process"])
        elif kind == "state":
            self.picture.state = told
        elif kind == "news":
            self.showing.tell_state(told)
        elif kind == "word":
            self.end_word(told)

    def end_word(self, told: Message) -> None:
        """A word has ended: why calls of it failed is found out, noted in the journal, and told to those that wait."""
        word, block, is_again = told["word"], told["block"], told.get("again", False)
        mistakes = refused(self.picture.hello["prefork"], told["refused"]) if told["refused"] else told["mistakes"]
        why = [*explained(block, told["noted"], told["refusals"]), *mistakes]
        notes = [*why, *shown(told["errors"])]
        if not is_again:
            self.note(told, why, notes if told["is_noted"] else [])
        if is_routine(word):
            return
        self.picture.words.append(Done(word, told["began"], told["seconds"], block, why, told["errors"]))
        notes += self.notes_of(told)
        if not is_again:
            self.answers.add_notes(self.number, notes)
            self.showing.tell_word(self.picture.words[-1] if word != START else None)

    def note(self, told: Message, why: list[str], notes: list[str]) -> None:
        """Notes in the journal why calls failed, and why workers have ended that no call tells of."""
        word, noted = told["word"], told["noted"].items()
        self.picture.passed.update(passed(told["noted"]))
        ended = [f"worker {name}: {reason}" for name, reason in noted if not is_told(reason, why)]
        self.lines.note(*(f"{word}: {line}" for line in notes), *ended)

    def notes_of(self, told: Message) -> list[str]:
        """What else is said to people of a word: what is to be done about the files, and what runs."""
        word, block, found = told["word"], told["block"], []
        if is_broken(word, block) and not told["refusals"]:
            self.picture.of_files = PRELOADER_SERVES if told["is_forked"] else OLD_SERVES
            found.append(self.picture.of_files)
            if not told.get("again"):
                say(self.picture.of_files)
        elif word in CHANGES and block_of(block).report.runs:
            self.picture.of_files = None
        found += told["of_file"]
        if word not in (START, *STOPS):
            found.append(f"runs now: {self.picture.runs_now()}")
            if word in ("TTOU", "WINCH") and not told["wanted"]:
                found.append(NOBODY_SERVES)
        return found

    def tend(self) -> None:
        if not self.picture or not self.picture.state:
            return
        if self.has_news or self.picture.is_changing():
            self.has_news = False
            self.tell_line()
        if limits := self.picture.state.get("hard_memory"):
            self.barrier.duty(self.guard.tend, limits)
        self.showing.tend()

    def tell_line(self) -> None:
        """Tells the line that systemd shows, where it is another one."""
        line = self.picture.line()
        if line != self.status_line:
            self.status_line = line
            self.say(f"status {line}")


def is_told(reason: str, why: list[str]) -> bool:
    """Whether a reason explains a call."""
    return any(line.endswith(f": {reason}") for line in why)


def main() -> int:
    if sys.argv[1:] == ["--version"]:
        print(f"prefork-watch {VERSION}")
        return 0
    take_standard()
    stream, askers, parent = map(int, sys.argv[1:4])
    set_title("prefork-watch")
    if not end_with(parent):
        return 1
    signal.pthread_sigmask(signal.SIG_SETMASK, ())
    for number in IGNORED_SIGNALS:
        signal.signal(number, signal.SIG_IGN)
    try:
        Watch(socket.socket(fileno=stream), socket.socket(fileno=askers)).run()
    except Broken as fault:
        say(f"prefork-watch: {fault}")
        return 1
    return 0

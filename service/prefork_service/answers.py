"""Those that have asked prefork-serve something, and were handed over to prefork-watch: each is answered once the events have
come that it may rest on. One that reads slowly delays nobody."""
import json
import os
import pathlib
import selectors
import socket
import sys
import time
from typing import TYPE_CHECKING, Any

from . import places
from .burying import started
from .configuration import file_of
from .feed import NOTES
from .folder import text_of
from .sockets import given_sockets
from .words import NOTE, STATUS, TRY

if TYPE_CHECKING:
    from .recipes import Setup
    from .watch import Watch

# How long an asker may take to read its answer, and how many of them there may be.
READ_SECONDS, MOST_ASKERS, MOST_NOTES = 10.0, 512, 64
MOST_ASKED, MOST_GIVEN = 4096, 128
# How much longer than its worker may take to be ready a trial may run.
TRIAL_SECONDS = 90.0
NOT_TRIED = "there is no worker to try: with --preload try is not possible"


class Asker:
    """A connection, what it has asked after which event, what is still to be said to it, and until when it may take."""

    def __init__(self, client: socket.socket, number: int, text: str):
        self.client, self.number, self.text, self.unsaid = client, number, text, b""
        self.until, self.is_answered = time.monotonic() + READ_SECONDS, False


class Answers:
    """The askers, and the notes of the last words by the numbers of their events."""

    def __init__(self, watch: "Watch", source: socket.socket):
        self.watch, self.events = watch, watch.events
        self.askers: dict[socket.socket, Asker] = {}
        self.notes: dict[int, list[str]] = {}
        self.events.register(source, selectors.EVENT_READ, self.admit)

    def admit(self, source: socket.socket) -> None:
        text, numbers = socket.recv_fds(source, MOST_ASKED, MOST_GIVEN)[:2]
        given = given_sockets(numbers)
        if not text:
            self.events.unregister(source)
            return
        number, asked = json.loads(text)
        for client in given:
            client.setblocking(False)
            if len(self.askers) < MOST_ASKERS:
                self.askers[client] = Asker(client, number, asked)
            else:
                client.close()

    def add_notes(self, number: int, notes: list[str]) -> None:
        self.notes[number] = notes
        while len(self.notes) > MOST_NOTES:
            del self.notes[min(self.notes)]

    def seconds(self, most: float) -> float:
        return most / 10 if self.askers else most

    def tend(self) -> None:
        """Answers those whose turn it is, and drops those that have taken too long."""
        for asker in [*self.askers.values()]:
            if asker.until < time.monotonic():
                self.drop(asker)
            elif not asker.is_answered and asker.number <= self.watch.number:
                asker.is_answered = True
                self.watch.barrier.duty(self.answer, asker)
                if asker.client in self.askers and not asker.unsaid:
                    self.drop(asker)

    def answer(self, asker: Asker) -> None:
        if asker.text == STATUS:
            self.say(asker, json.dumps(self.watch.picture.status()) + "\n")
        elif asker.text == NOTES:
            self.say(asker, "".join(f"{NOTE}{note}\n" for note in self.notes.get(asker.number, [])))
        elif asker.text == TRY:
            self.try_next(asker)

    def say(self, asker: Asker, text: str) -> None:
        asker.unsaid = text.encode()
        self.say_more(asker.client)
        if asker.client in self.askers:
            self.events.register(asker.client, selectors.EVENT_WRITE, self.say_more)

    def say_more(self, client: socket.socket) -> None:
        asker = self.askers.get(client)
        if not asker:
            return
        try:
            asker.unsaid = asker.unsaid[client.send(asker.unsaid) :]
        except BlockingIOError:
            return
        except OSError:
            asker.unsaid = b""
        if not asker.unsaid:
            self.drop(asker)

    def drop(self, asker: Asker) -> None:
        del self.askers[asker.client]
        if asker.client in self.events.get_map():
            self.events.unregister(asker.client)
        asker.client.close()

    def try_next(self, asker: Asker) -> None:
        """Has one worker of the next version tried by a process of its own, which answers the asker."""
        from .recipes import setup_of, told_in
        from .refusing import mistake_of, refusal_of
        from .toml_lines import line_of
        hello = self.watch.picture.hello
        config = pathlib.Path(hello["file"])
        try:
            text = text_of(config)
        except OSError as fault:
            self.say(asker, f"{NOTE}{config}: {fault.strerror}\nword {TRY}\nrefused not-read\n")
            return
        setup = setup_of(text, told_in(hello["told"]))
        if not setup.faults and (not setup.recipes or any(one.runs and one.runs.is_forked for one in setup.recipes)):
            self.say(asker, f"{NOTE}{NOT_TRIED}\nword {TRY}\nrefused not-tried\n")
            return
        if refusal := refusal_of(hello["prefork"], config):
            self.say(asker, f"{NOTE}{mistake_of(refusal) or refusal.splitlines()[0]}\nword {TRY}\nrefused configuration\n")
            return
        if setup.faults:
            wrong = setup.faults[0]
            said = f"{config}, line {line_of(text.decode(), wrong.path)}: {wrong.text}"
            self.say(asker, f"{NOTE}{said}\nword {TRY}\nrefused configuration\n")
            return
        self.begin_trial(asker, setup)

    def begin_trial(self, asker: Asker, setup: "Setup") -> None:
        """Starts the process of a trial. What starts the workers is on its input: it may have secrets."""
        hello = self.watch.picture.hello
        seconds = max(one.ready_within or hello["ready_seconds"] for one in setup.recipes)
        given = [hello["file"], os.environ.get("PREFORK_PLACE", ""), str(seconds)]
        code = "import sys; from prefork_service import trial; sys.exit(trial.main(sys.argv[1:]))"
        environment = {**os.environ, "PYTHONPATH": str(places.HOME), "PYTHONDONTWRITEBYTECODE": "1"}
        section = os.memfd_create("trial")
        try:
            os.write(section, file_of(setup.groups(), [one.words for one in setup.recipes]))
            os.lseek(section, 0, os.SEEK_SET)
            streams: dict[str, Any] = {"stdin": section, "stdout": asker.client, "env": environment}
            asker.client.setblocking(True)
            process = started([sys.executable, "-c", code, *given], start_new_session=True, **streams)
        finally:
            os.close(section)
        self.watch.showing.hooks.watch(process, TRY, seconds * len(setup.recipes) + TRIAL_SECONDS)
        self.drop(asker)

"""What a service is asked: by signals, and by askers at its door."""
import json
import os
import selectors
import signal
import socket
from typing import TYPE_CHECKING, Any

from .door import Door
from .folder import plain, say
from .questions import ANSWERS, NOT_ASKED, STATE, Answer, answer_in, state
from .sockets import file_of
from .words import BRIEF, NOTE, SIGNALS, STATUS, TICK, TRY, WORDS, Word

if TYPE_CHECKING:
    from .service import Service

LONGEST_QUESTION, DOOR_QUEUE = 4096, 64
# The lines of an answer that the journal has.
MOST_NOTED_LINES = 12
NOTHING_ASKED = "nothing is asked: go and back answer an upgrade that asks, USR2 attended"
NO_WATCH = "prefork-watch, which starts trials, does not answer just now"
FAULT = "a fault in prefork-serve, which has logged it with its trace"


class Asking:
    """The signals and the askers of a service."""

    def __init__(self, service: "Service"):
        self.service, self.events = service, service.events
        self.take_signals()
        self.door = Door(self.events, self.listener(), self.hear_asker, say)

    def take_signals(self) -> None:
        """Each signal that comes is a byte in a pipe."""
        self.signals, tell = os.pipe()
        os.set_blocking(tell, False)
        signal.set_wakeup_fd(tell)
        for name in SIGNALS:
            signal.signal(signal.Signals[f"SIG{name}"], lambda number, frame: None)
        self.events.register(self.signals, selectors.EVENT_READ, self.hear_signals)

    def forsake(self, source: Any) -> None:
        """The signals have failed again and again."""
        self.events.unregister(source)
        self.take_signals()

    def listener(self) -> socket.socket:
        listener = socket.socket(socket.AF_UNIX)
        words = self.service.folder.words
        listener.bind(str(words))
        os.chmod(words, 0o600)
        listener.listen(DOOR_QUEUE)
        self.file = file_of(str(words))
        return listener

    def tend(self) -> None:
        """Opens the door again whose name somebody has removed."""
        self.door.tend()
        if file_of(str(self.service.folder.words)) != self.file:
            self.service.folder.words.unlink(missing_ok=True)
            self.door.replace(self.listener())
            say(f"{self.service.folder.words} is made again")

    def hear_signals(self, signals: int) -> None:
        for number in os.read(signals, 4096):
            self.service.barrier.duty(self.take_signal, number)

    def take_signal(self, number: int) -> None:
        name = signal.Signals(number).name.removeprefix("SIG")
        if name in SIGNALS:
            self.service.take(Word(name))

    def hear_asker(self, asker: socket.socket) -> None:
        try:
            text = asker.recv(LONGEST_QUESTION).decode().strip()
        except (OSError, UnicodeDecodeError):
            text = ""
        word = Word(text, asker)
        try:
            self.take_text(word, text)
        except Exception:
            word.answer(f"{NOTE}{FAULT}\nrefused fault\n")
            raise

    def take_text(self, word: Word, text: str) -> None:
        """A word, an answer or a question of somebody that waits for what comes of it."""
        service = self.service
        if text in (*WORDS, TICK):
            service.take(word)
        elif text == BRIEF:
            word.answer(json.dumps(service.summary.brief()) + "\n")
        elif given := answer_in(text):
            self.answer(word, given)
        elif text in (STATUS, TRY):
            self.hand_over(word)
        elif text == STATE:
            current = service.current.text if service.current else None
            word.answer(state(service.question, current, len(service.waiting)))
        else:
            word.answer(f"{NOTE}{plain(text) or 'nothing'} is not a word. Words are {', '.join(WORDS)} and {STATUS}\nunread W1\n")

    def hand_over(self, word: Word) -> None:
        """Has prefork-watch answer. In its place the status is told in short."""
        if self.service.feed.hand_over(word.askers, word.text):
            word.close()
        elif word.text == STATUS:
            word.answer(json.dumps(self.service.summary.brief()) + "\n")
        else:
            word.answer(f"{NOTE}{NO_WATCH}\nword {word.text}\nrefused not-tried\n")

    def answer(self, word: Word, given: Answer) -> None:
        """Answers the question, if there is one, and if it is the one that is meant."""
        service, word.text = self.service, given.word
        if not service.question or given.number not in (None, service.questions):
            word.answer(f"{NOTE}{NOTHING_ASKED}\nword {word.text}\n{NOT_ASKED}\n")
            return
        service.master.tell(ANSWERS[word.text])
        why = [plain(line) for line in given.why[:MOST_NOTED_LINES]]
        service.note(f"question {service.question} is answered: {word.text}{f': {why[0]}' if why else ''}")
        for line in why[1:]:
            service.chronicle.journal.note(f"question {service.question}: {line}")
        word.answer(f"word {word.text}\nanswered {service.question} {word.text}\n")
        service.question = 0

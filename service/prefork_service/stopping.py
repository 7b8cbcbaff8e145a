"""The end of a service: a stop that was accepted ends it, whichever process has ended or hangs by then.

A master that carries out a stop ends its workers, and then itself. Where it has ended before that, or none can be started,
no other one is: workers whose master has ended finish by themselves. INT and TERM kill them.
"""
import os
import time
from typing import TYPE_CHECKING

from .burying import await_holders, bury_orphans
from .leaving import start_of
from .patience import kill_masters
from .processes import masters_of
from .surviving import counted
from .words import GENTLE, STOPS, Word

if TYPE_CHECKING:
    from .service import Service

# How long workers may take to end where no limit ends them earlier, and then those that are killed; how often it is looked.
STOP_SECONDS, KILL_SECONDS, STOPPING_PAUSE_SECONDS = 60.0, 10.0, 0.02
ALONE = "the master had ended, and the service has stopped without it"


class Stopping:
    """Waits for the end of all workers, and ends the service."""

    def __init__(self, service: "Service"):
        self.service, self.leaving = service, service.leaving
        # The stop, once no master runs; whether none has carried it out; and until when workers may finish.
        self.word: Word | None = None
        self.is_alone, self.until = False, 0.0
        # The processes that have to end, each with its start, and those that were killed before that.
        self.known, self.before = set[tuple[int, str]](), set[tuple[int, str]]()

    def begin(self, word: Word, is_alone: bool) -> None:
        """No master runs any more, and the service is to stop."""
        self.word, self.is_alone, self.before = word, is_alone, set(self.leaving.killed)
        self.leaving.seconds = self.leaving.seconds or STOP_SECONDS
        self.until = time.monotonic() + (self.leaving.seconds if word.text == GENTLE else 0.0)

    def is_due(self) -> bool:
        """Whether the service stops, so that no master is to be started: the stop that its master has left undone, or one
        that has waited."""
        service = self.service
        if not self.word and service.current and service.current.text in STOPS:
            self.begin(service.current, True)
        elif not self.word and service.waiting.stops:
            word = service.waiting.next()
            self.begin(word, True)
            service.begin_word(word)
        return bool(self.word)

    def finish(self, word: Word) -> None:
        """The master has carried out the stop, and has ended: nobody is left but those of another master that has died."""
        if not self.word:
            self.begin(word, False)
        while not self.service.is_stopped:
            self.service.barrier.duty(bury_orphans)
            self.tend()
            time.sleep(STOPPING_PAUSE_SECONDS)

    def tend(self) -> None:
        """Ends the service once all have ended that have to."""
        if not self.word:
            return
        duty, is_urgent = self.service.barrier.duty, any(word.text != GENTLE for word in self.service.waiting.stops)
        # (whether somebody is left is not known where the system can't be asked)
        is_over = duty(self.look) == set()
        if not is_over and (is_urgent or time.monotonic() > self.until):
            self.until = min(self.until, time.monotonic())
            duty(self.leaving.kill_all)
            duty(kill_masters, os.getpid(), 1)
        if is_over or time.monotonic() > self.until + KILL_SECONDS:
            self.end(self.word)

    def look(self) -> set[tuple[int, str]]:
        """The processes of workers that have not ended, and the masters to which an ended one has led."""
        # (a worker may have begun to serve on in the very moment in which the others were told)
        self.service.survivors.close()
        self.leaving.take_all()
        masters = {(process, start_of(process)) for process in masters_of(os.getpid())[1:]}
        self.known = {one for one in self.known | masters | set(self.leaving.due) if one[1] and one[1] == start_of(one[0])}
        return self.known

    def end(self, word: Word) -> None:
        service = self.service
        service.current, service.is_stopped = None, True
        service.status_of_end = 1 if self.known else service.status_of_end
        service.barrier.duty(await_holders)
        if self.is_alone:
            said = f"{ALONE}; {self.became()}"
            service.barrier.duty(service.note, f"{word.text}: {said}")
            word.answer(f"lost: {said}\n")

    def became(self) -> str:
        """What became of the workers."""
        killed = len(self.leaving.killed - self.before)
        if self.known:
            return f"{len(self.known)} of its processes have not ended"
        return f"{counted(killed)} {'was' if killed == 1 else 'were'} killed" if killed else "its workers have finished"

"""The loop of a service: words to the master, one at a time, and their blocks to those that asked."""
import selectors
import sys
import time
from collections.abc import Callable
from typing import TYPE_CHECKING, Any

from .asking import Asking
from .barrier import Barrier
from .blocks import NEW_MASTER, block_of, report_of
from .burying import bury_orphans
from .chronicle import Chronicle
from .commands import Commands
from .configuration import Configuration
from .feed import NOTES, Feed
from .folder import say
from .journal import wall_clock
from .keeping import KeeperProcess
from .leaving import Leaving
from .bounds import end_seconds
from .master import Master
from .patience import UPGRADES, Hanging
from .processes import masters_of
from .questions import line_of
from .reading import ReaderProcess
from .stopping import Stopping
from .summary import Summary
from .surviving import Survivors, counted, running
from .systemd import may_store, notify
from .telling import Telling
from .ticks import Ticks
from .watching import Watching
from .words import CHANGES, NOTE, START, STOPS, TICK, Queue, Word, is_routine, is_tick

if TYPE_CHECKING:
    from .changes import Changes

# What comes of a tick comes in many small pieces, and nobody waits for it: what came in this time is read together.
# And what has to be tended waits for this time, while nothing else happens.
TOGETHER_SECONDS, QUIET_SECONDS = 0.01, 0.25
# The longest pause of the loop, and that while no master runs.
PAUSE, SHORT_PAUSE = 1.0, 0.1
TOO_MANY, NOT_READ = "refused too-many-wait", "refused not-read"
NOT_TOLD = "why is told by prefork-watch, which does not answer just now"


class Service:
    """A master that is kept running, and the words that wait for it."""

    def __init__(
        self, keeping: KeeperProcess, command: list[str], commands: Commands, chronicle: Chronicle, limits: list[str], told: dict[str, Any],
    ):
        """What is told prefork-watch of the service once is `told`."""
        self.keeping, self.folder, self.events = keeping, keeping.folder, keeping.events
        self.barrier = Barrier(say)
        self.command, self.commands, self.chronicle, self.limits = command, commands, chronicle, limits
        # The master, once it is started, the words that wait for it, and the one that it carries out.
        self.master: Any = None
        self.waiting = Queue()
        self.current: Word | None = None
        # The question that the current word asks, or 0; since when, and how many there were.
        self.question, self.asked, self.questions = 0, 0.0, 0
        self.word_began, self.tended = 0.0, 0.0
        self.begun, self.ticks, self.is_stopped = 0.0, Ticks(), False
        self.has_heard, self.is_ready = False, False
        # Whether the program of the master may be an older one by now, which has no limits.
        self.is_old = False
        self.watching, self.began, self.starts = Watching(keeping.folder), time.monotonic(), 0
        self.record = self.watching.record
        # Why the service ends that could not start, and whether it goes on trying in place of that.
        self.failure, self.keeps_trying = "", False
        # The files whose changes reload it, if there are some.
        self.changes: "Changes | None" = None
        self.leaving = Leaving(self.folder.path, end_seconds(limits))
        self.survivors = Survivors(self.folder.survivors, self.leaving)
        self.survivors.open()
        self.hanging, self.stopping, self.status_of_end = Hanging(self), Stopping(self), 0
        self.summary = Summary(self)
        self.feed = Feed(self.events, told, self.summary.state, notify)
        self.telling = Telling(self, self.feed)
        asked = {"config": str(commands.config), "told": told["told"], "most_seconds": end_seconds(limits), "python": sys.executable}
        self.reading = ReaderProcess(self.events, asked, self.take_reading)
        self.asking = Asking(self)

    def run(self) -> int:
        """Serves until it is told to stop; the status."""
        while not self.is_stopped:
            self.turn()
        while self.waiting:
            self.waiting.next().answer("lost: the service has stopped\n")
        self.watching.end_all()
        return self.status_of_end

    def turn(self) -> None:
        """A turn of the loop. What an event or a duty raises costs that one alone."""
        duty = self.barrier.duty
        duty(self.begin_master)
        duty(self.tell_next)
        if self.is_ticking():
            time.sleep(TOGETHER_SECONDS)
        heard = self.barrier.select(self.events, duty(self.pause))
        for key in heard:
            self.barrier.event(self.events, key)
            if self.is_stopped:
                return
        if duty(self.is_quiet, heard):
            return
        self.tended = time.monotonic()
        preloading = [self.commands.preloading.tend] if self.commands.preloading else []
        preloading += [self.changes.tend] if self.changes else []
        preloading += [self.keeping.listeners.tend] if self.keeping.listeners else []
        tends: list[Callable[..., Any]] = [self.commands.mend, self.keeping.mend, self.asking.tend, self.keeping.tend, *preloading, self.hurry]
        tends += [self.reading.tend, bury_orphans, self.hanging.tend, self.tend_survivors, self.end_late, self.stopping.tend]
        tends += [self.chronicle.tend, self.telling.tend, sys.stderr.flush]
        for tend in tends:
            duty(tend)

    def is_quiet(self, heard: list[selectors.SelectorKey]) -> bool:
        """Whether nothing was heard but signs of life, and pieces of a tick that is carried out, since all was tended a moment ago."""
        if not heard or not self.master or time.monotonic() - self.tended > QUIET_SECONDS:
            return False
        pieces = [self.master.output, self.master.errors] if self.is_ticking() else []
        is_whole = self.feed.process and self.keeping.process and not self.keeping.lost and not self.survivors.now and not self.stopping.word
        return bool(is_whole) and all(key.fileobj in (self.feed.stream, self.keeping.channel, *pieces) for key in heard)

    def hurry(self) -> None:
        """Where a worker may have ended, the next tick is due."""
        is_lost = self.keeping.take_lost()
        if is_lost:
            self.ticks.hurry()
        self.watching.look(is_lost)

    def forsake(self, source: Any) -> None:
        """A source of events has failed again and again."""
        if self.master and source in (self.master.output, self.master.errors):
            self.master.process.kill()
            self.end_master()

    def end_late(self) -> None:
        """Kills workers that should have ended, and says so."""
        for name in self.leaving.tend([one.process for one in self.survivors.now]):
            self.note(f"worker {name} has not ended within {self.leaving.seconds:g} s, and is killed")

    def tend_survivors(self) -> None:
        masters = running(masters_of(self.master.process.pid)) if self.master and self.survivors.now else []
        self.survivors.tend(masters, self.record.wanted)
        self.watching.survivors = len(self.survivors.now)

    def settle_survivors(self, report: str) -> None:
        """Where others serve in their place, workers that have survived their master finish."""
        if count := self.survivors.settle(report, self.record, [*self.commands.current.sizes]):
            self.note(f"{counted(count)} of a master that has died: told to finish, since others serve")

    def note(self, text: str) -> None:
        say(text)
        self.chronicle.journal.note(text)

    def pause(self) -> float:
        """How long the loop may wait for something to happen."""
        moments = [None if self.current else self.ticks.seconds(), self.asking.door.seconds(), PAUSE if self.master else SHORT_PAUSE, self.telling.seconds()]
        moments += [self.changes.seconds()] if self.changes else []
        # (the new master of an upgrade that ends waits for its workers, which are told to finish soon)
        moments += [SHORT_PAUSE] if self.survivors.now or self.current and self.current.text in UPGRADES else []
        return min(moment for moment in moments if moment is not None)

    def begin_master(self) -> None:
        """Starts a master if none runs, at most one a second. Its start is the first block."""
        if self.master is not None or self.stopping.is_due() or time.monotonic() - self.begun < 1:
            return
        self.begun = time.monotonic()
        try:
            self.commands.begin()
            limits = [] if self.is_old else self.limits
            command = [*self.command, *limits]
            master = Master(command, self.folder, lambda block: self.barrier.duty(self.chronicle.records.add, block), may_store())
            self.hanging.patience.take_limits(limits)
            try:
                self.take_master(master)
            except Exception:
                # (a descriptor that is closed is heard no longer)
                self.master, self.current = None, None
                master.process.kill()
                master.close()
                raise
        except OSError as fault:
            if not self.has_heard:
                sys.exit(f"prefork-serve: {fault}")
            say(f"the master is not started: {fault}")

    def take_master(self, master: Master) -> None:
        """Hears a master that was started, from its first block on."""
        self.events.register(master.output, selectors.EVENT_READ, self.hear_master)
        self.events.register(master.errors, selectors.EVENT_READ, self.hear_errors)
        self.master, self.current = master, Word(START)
        self.starts += 1
        current = self.commands.current
        self.watching.begin_master(current.workers, current.timeout)
        self.barrier.duty(self.chronicle.begin_master, current.for_master, master.process.pid)
        self.begin_word(self.current)

    def begin_word(self, word: Word) -> None:
        self.current, self.word_began = word, time.monotonic()
        if word.text != START:
            # What workers of the word before were refused, and have asked for since, explains nothing of this one.
            self.keeping.refusals.clear()
        self.barrier.duty(self.hanging.begin)
        self.barrier.duty(self.watching.begin, word.text)
        self.barrier.duty(self.chronicle.begin_word, word.text)
        self.barrier.duty(self.telling.begin_word, word.text in CHANGES)
        if word.text in (*CHANGES, START):
            self.keeping.hold_back()
        if word.text in STOPS:
            notify("STOPPING=1")
            self.barrier.duty(self.keeping.seal)
        if word.text == "QUIT":
            self.barrier.duty(self.keeping.drain)
        if word.text in STOPS:
            self.barrier.duty(self.survivors.close)

    def tell_next(self) -> None:
        """Tells the word that is due, once the master has done the one before."""
        if self.master is None or self.current is not None or not (word := self.due()):
            return
        try:
            self.current = word
            self.begin_word(word)
            if word.text in CHANGES:
                # (it is told once the configuration has been read)
                self.read_again()
            else:
                self.master.tell(word.text)
        except Exception as fault:
            # Nobody would answer a word that was not told. A stop needs no master.
            if word.text in STOPS:
                self.master.process.kill()
            else:
                self.refuse(NOT_READ, f"it is not told to the master: {fault}")
            raise

    def due(self) -> Word | None:
        """The word that is to be told now."""
        if self.waiting:
            word = self.waiting.next()
            if word.text == TICK:
                self.watching.begin(word.text)
                word.text = self.ticks.tell(self.watching.pause())
            return word
        if not self.ticks.is_due():
            return None
        if self.watching.wants_tick(self.ticks.told):
            return Word(self.ticks.tell(self.watching.pause()))
        self.ticks.put_off()
        return None

    def read_again(self) -> None:
        """Has the configuration read again for the current word, which is refused if that is not possible."""
        try:
            self.reading.begin()
        except OSError as fault:
            self.refuse(NOT_READ, f"the configuration is not read: {fault}")

    def take_reading(self, found: Configuration | None, why: str) -> None:
        """The configuration has been read for the current word, or could not be, which refuses it."""
        word = self.current
        if not word or not self.master:
            return
        try:
            if not found:
                self.refuse(NOT_READ, f"the configuration is not read: {why}")
            elif self.goes_over(found):
                self.master.tell(word.text)
        except Exception as fault:
            self.refuse(NOT_READ, f"it is not told to the master: {fault}")
            raise

    def goes_over(self, found: Configuration) -> bool:
        """Goes over to a configuration for the current word, which is refused if the copy for the master can't be written;
        whether the word is still to be told."""
        try:
            self.commands.change(self.record.generation, found)
            self.chronicle.records.proposed = found.for_master
            if wanted := self.keeping.wanted(found):
                wanted.propose(found)
            self.keeping.renew()
        except OSError as fault:
            self.refuse(NOT_READ, f"the configuration is not read: {fault}")
        else:
            if found.refusal:
                self.refuse(*found.refusal)
        return self.current is not None

    def refuse(self, report: str, reason: str) -> None:
        """Refuses the current word, which its master is not told."""
        word, self.current = self.current, None
        self.barrier.duty(self.telling.end_word)
        self.barrier.duty(self.keeping.let_close)
        if word:
            say(f"{word.text}: {reason}")
            self.barrier.duty(self.settle_options, report)
            self.barrier.duty(self.chronicle.refuse_word, word.text, report, reason)
            block = f"word {word.text}\n{report}\n"
            word.answer(f"{NOTE}{reason}\n{block}")
            self.barrier.duty(self.tell_refused, word, block, reason)

    def tell_refused(self, word: Word, block: str, reason: str) -> None:
        told = {"word": word.text, "began": wall_clock(), "seconds": 0.0, "block": block, "noted": {}, "errors": {}, "is_noted": False}
        self.feed.tell_word({**told, **self.told_beside([], [reason])}, True)

    def hear_master(self, _: int) -> None:
        blocks = self.master.hear()
        if blocks is None:
            self.end_master()
            return
        # Whom it has killed is said before the block that tells of it.
        self.barrier.duty(self.hear_errors, self.master.errors)
        for block in blocks:
            word = self.current
            self.barrier.duty(self.end_word, block)
            if word and self.current is word:
                # Nothing would end it any more.
                self.current = None
                word.answer(block)
            if word and word.text in STOPS and not self.is_stopped:
                # A fault has kept it from its end.
                self.end_master(word)
                return

    def hear_errors(self, _: int) -> None:
        if self.master is None or self.is_stopped:
            # It ended in this very turn.
            return
        for question in self.master.hear_errors():
            self.ask(question)
        for name, why in self.master.killed.items():
            say(f"{'the new master' if name == NEW_MASTER else f'worker {name}'} is {why}")
        self.chronicle.noted |= self.master.killed
        self.master.killed.clear()
        if self.master.is_silent and self.master.errors in self.events.get_map():
            self.events.unregister(self.master.errors)

    def ask(self, question: int) -> None:
        """The current word asks: no tick and no other word is told until it is answered."""
        self.question, self.asked, self.questions = question, time.monotonic(), self.questions + 1
        # (connections to an address that nobody has would wait for an operator)
        self.barrier.duty(self.keeping.let_close)
        if self.current:
            say(f"{self.current.text} {line_of(question)}".rstrip())
            self.current.tell(line_of(question))

    def end_word(self, block: str) -> None:
        word, self.current, self.question = self.current, None, 0
        if word is None:
            return
        report, self.has_heard = block.splitlines()[-1], True
        ended = report_of(report)
        self.barrier.duty(self.settle_options, report)
        reasons = self.barrier.duty(self.chronicle.take_reasons, block) or {}
        self.barrier.duty(self.watching.end, word.text, block, reasons)
        self.barrier.duty(self.leaving.note, block)
        self.barrier.duty(self.settle_survivors, report)
        self.barrier.duty(self.settle, word, block)
        # (what ticks leave missing is told once, by the state of the whole)
        if not is_tick(word.text) or ended.outcome not in ("done", "degraded"):
            say(f"{'start' if word.text == START else word.text}: {report}")
        try:
            self.conclude(word, report, block)
        finally:
            # The block is certain to come. Why calls failed is told by another process, which nobody waits for.
            word.tell(block)
            self.barrier.duty(self.explain, word, block)
            word.close()
        has_failed = word.text == START and ended.outcome == "degraded" and not self.record.workers
        if has_failed and not self.is_ready and not self.keeps_trying:
            # It would try for ever what its operator has to mend.
            self.failure = f"no worker has started: {self.watching.why()}"
            self.waiting.take(Word("INT"))
        # (a stop is done too, and what it ends was perhaps never ready)
        if (ended.outcome == "done" or self.record.workers) and not self.is_ready and word.text not in STOPS:
            self.is_ready = True
            notify("READY=1")

    def settle_options(self, report: str) -> None:
        """The configuration that runs is certain, and with it the options of listeners."""
        self.commands.settle(report)
        if wanted := self.keeping.wanted(self.commands.current):
            wanted.settle(self.commands.current)

    def settle(self, word: Word, block: str) -> None:
        """Settles what rests on a block: the configuration, the keeper, and systemd."""
        duty, runs = self.barrier.duty, block_of(block).report.runs
        if word.text == START:
            duty(self.commands.accept)
            duty(self.keeping.release)
        if word.text in (*CHANGES, START) and runs:
            duty(self.keeping.settle)
        if word.text in CHANGES and runs:
            duty(self.keeping.drop_others, [*self.commands.current.addresses])
        duty(self.telling.end_word)

    def explain(self, word: Word, block: str) -> None:
        """Has prefork-watch tell those that wait why calls of a block failed."""
        told = self.chronicle.end_word(word.text, block)
        refusals = list(dict.fromkeys(self.keeping.refusals))
        self.keeping.refusals.clear()
        if not told:
            return
        refused = self.refused_file(word, block)
        mistakes = [] if refused or not self.is_unread(word, block) else [f"{self.commands.config} could not be read"]
        number = self.feed.tell_word({**told, **self.told_beside(refusals, mistakes), "refused": refused, "of_file": self.of_file(word, block)}, not self.is_tick(word))
        if word.askers and not self.feed.hand_over(word.askers, NOTES, number):
            word.tell(f"{NOTE}{NOT_TOLD}\n")

    def of_file(self, word: Word, block: str) -> list[str]:
        """What is to be said of the configuration that a word has gone over to, or back from."""
        notes = self.keeping.listeners.take_notes() if self.keeping.listeners else []
        return [*self.commands.notes(block), *notes] if word.text in CHANGES else notes

    def told_beside(self, refusals: list[str], mistakes: list[str]) -> dict[str, Any]:
        """What else is to be known of a word that has ended."""
        return {
            "refusals": refusals, "mistakes": mistakes, "refused": "", "is_forked": self.commands.is_forked(),
            "wanted": self.record.wanted, "of_file": [],
        }

    def conclude(self, word: Word, report: str, block: str) -> None:
        """Ends the service after a stop, and a master that is of no further use."""
        # The new master of an upgrade has gone, and its workers with it. The old one, which passed
        # words on to it, is of no further use.
        ended = report_of(report)
        is_lost = ended.outcome == "lost" or report == "refused V1"
        if is_lost:
            self.barrier.duty(self.mark_lost, block)
            self.master.process.kill()
        if word.text in STOPS:
            # It ends the service, whatever the report is.
            if ended.outcome != "done":
                self.master.process.kill()
            self.barrier.duty(self.hanging.finish)
            self.stopping.finish(word)
        elif is_lost:
            self.end_master()
        else:
            self.barrier.duty(self.keeping.let_close)

    def mark_lost(self, block: str) -> None:
        """Marks in the record that a new master has ended, if that is so: no model of a master says it."""
        if why := self.hanging.lost_master(block, self.record.generation):
            say(why)
            self.chronicle.records.mark_lost(why)

    def is_unread(self, word: Word, block: str) -> bool:
        """Whether the master has refused the configuration of a word."""
        return word.text in CHANGES and block_of(block).report.is_of_file

    def refused_file(self, word: Word, block: str) -> str:
        """The file with the configuration that the master has refused, if there is one."""
        return str(self.commands.source()) if self.is_unread(word, block) and self.commands.next.exists() else ""

    def release_master(self) -> Master:
        """Hears the master no longer, and tells it nothing more."""
        self.barrier.duty(self.reading.end)
        master: Master = self.master
        self.master, self.question = None, 0
        for source in (master.output, master.errors):
            if source in self.events.get_map():
                self.events.unregister(source)
        return master

    def end_master(self, stop: Word | None = None) -> None:
        """The master has ended without having been told to, or is of no use for a stop, which goes on without it."""
        master, duty = self.release_master(), self.barrier.duty
        word, self.current = self.current, None
        if stop:
            duty(master.process.kill)
        status = duty(master.close)
        duty(self.leaving.take_all)
        if not stop and word and word.text in STOPS:
            stop = word
        if stop:
            # (no other master is started)
            self.current = stop
            duty(self.chronicle.cut_word, stop.text, master.block)
            return
        self.keeping.hold_back()
        duty(self.survivors.open)
        duty(self.survivors.note_death)
        if word:
            duty(self.chronicle.cut_word, word.text, master.block)
        duty(self.chronicle.end_master, word.text if word else "")
        if not self.has_heard:
            sys.exit(f"prefork-serve: {self.command[0]} does not start as the master: it has ended with status {status} "
                     "before its first block. Is it the program prefork, in this version?")
        # One that has ended before its first block was perhaps told options that it does not know.
        self.is_old = not self.is_old and word is not None and word.text == START and not master.block
        duty(self.telling.end_word)
        duty(self.settle_options, "lost")
        say(f"the master has ended with status {status}, and is started again with the configuration that was accepted")
        if self.commands.has_changed():
            say(f"{self.commands.config} has changed since: HUP reads it")
        if word:
            word.answer("lost: the master has ended\n")

    def is_tick(self, word: Word) -> bool:
        """Whether a word is a tick, and not the start of a master."""
        return is_routine(word.text)

    def is_ticking(self) -> bool:
        """Whether a tick is being carried out."""
        return self.current is not None and self.is_tick(self.current)

    def doing(self) -> str | None:
        """The word that is being carried out, if it is no tick."""
        return self.current.text if self.current and not self.is_ticking() else None

    def take(self, word: Word) -> None:
        """Lets a word wait for its turn."""
        if not self.waiting.take(word):
            word.answer(f"word {word.text}\n{TOO_MANY}\n")

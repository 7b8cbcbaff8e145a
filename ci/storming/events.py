"""What happens in a storm, by chance: words, kills, stops, full disks, removed files."""
import collections
import random
import shutil
import signal
import threading
import time
from collections.abc import Callable

import setups
from injecting.target import REPORT, UNANSWERED

from .service import WORD_SECONDS, Stormed, signal_to

# What may be killed, and what may be stopped for a while; a worker takes the requests with it that it has.
KILLED = ("master", "new master", "relay", "keeper", "watch", "worker", "holder", "program")
STOPPED = ("serve", *KILLED)
OF_WORKERS = ("worker", "holder", "program")
LONGEST_STOP = 3.0
MOST_WORKERS = 4
BROKEN_TEXTS = ("", "[" * 600, "listeners = [\n", 'listeners = ["127.0.0.1:0"]\n', "# nothing\n", "workrs = 3\n", "\0\0\0")
REMOVED = ("ctl.sock", "keeper.sock", "serve.pid", "config.toml", "accepted.toml", "workers", "commands/next", "reasons", ".prefork", "journal")


class Asker(threading.Thread):
    """A word on its way."""

    def __init__(self, service: Stormed, word: str):
        super().__init__(daemon=True)
        self.service, self.word, self.text = service, word, ""

    def run(self) -> None:
        self.text = self.service.asked(self.word)

    def report(self) -> str:
        """The first word of the report. An asker whose socket was removed, say, is dropped."""
        found = REPORT.findall(self.text)
        return str(found[-1]).replace("{", "told") if found else UNANSWERED if "timed out" in self.text else "dropped"


class Storm:
    """The events of a service, one after another, and some at a time."""

    def __init__(self, service: Stormed, seed: int, most_upgrades: int):
        self.service, self.chance = service, random.Random(seed)
        self.counts: collections.Counter[str] = collections.Counter()
        self.running: list[Asker] = []
        self.upgrades_left = most_upgrades

    def blow(self, deadline: float) -> None:
        """Lets things happen until a moment."""
        while time.monotonic() < deadline and self.service.serve.poll() is None:
            event = self.chance.choice(self.events())
            self.counts[event.__name__] += 1
            event()
            self.look()
            time.sleep(self.chance.uniform(0, 0.7))
        while self.running:
            self.look()
            time.sleep(0.1)

    def events(self) -> list[Callable[[], None]]:
        return [
            self.hup, self.hup, self.hup, self.upgrade, self.attended, self.broken_configuration, self.broken_application, self.word,
            self.word, self.burst, self.kill, self.kill, self.kill, self.halt, self.halt, self.full_disk, self.remove, self.ask,
        ]

    # Words.

    def say(self, word: str) -> "Asker":
        """A word on its way."""
        asker = Asker(self.service, word)
        asker.start()
        self.running.append(asker)
        return asker

    def say_and_perhaps_wait(self, word: str) -> None:
        asker = self.say(word)
        if self.chance.random() < 0.5:
            asker.join(self.chance.uniform(0, 10))

    def look(self) -> None:
        """Counts the words that have been answered; one that waits for too long is wrong."""
        self.service.hear()
        for asker in [asker for asker in self.running if not asker.is_alive()]:
            self.running.remove(asker)
            self.counts[f"{asker.word} {asker.report()}"] += 1
            if asker.report() == UNANSWERED:
                self.service.check(f"{asker.word}: no answer within {WORD_SECONDS:g} s; {self.service.tail()}", False)

    def hup(self) -> None:
        """A reload to the next version, with other numbers of workers and addresses."""
        service = self.service
        service.version += 1
        setups.lay_out(service.setup, service.site, service.version)
        addresses = [service.first] + ([service.second] if service.setup.takes_all and self.chance.random() < 0.4 else [])
        service.configure(workers=self.chance.randint(1, MOST_WORKERS), listeners=addresses)
        self.say_and_perhaps_wait("HUP")

    def upgrade(self) -> None:
        """Each leaves an old master, so that there are only some."""
        if self.upgrades_left > 0:
            self.upgrades_left -= 1
            self.say_and_perhaps_wait("USR2")

    def attended(self) -> None:
        if self.upgrades_left <= 0:
            return
        self.upgrades_left -= 1
        asker, deadline = self.say("USR2 attended"), time.monotonic() + 60
        while asker.is_alive() and time.monotonic() < deadline:
            time.sleep(0.3)
            self.service.asked(self.chance.choice(["go", "go", "back"]))
        self.service.asked("back")

    def broken_configuration(self) -> None:
        self.service.configure(self.chance.choice(BROKEN_TEXTS))
        self.service.asked(self.chance.choice(["HUP", "HUP", "USR2"]))
        self.service.configure()

    def broken_application(self) -> None:
        service = self.service
        setups.break_it(service.setup, service.site, self.chance.choice(["does not load", "exits"]))
        service.asked("HUP")
        setups.lay_out(service.setup, service.site, service.version)

    def word(self) -> None:
        word = self.chance.choice(["TTIN", "TTOU", "USR1", "tick", "HUP", "WINCH"])
        self.say_and_perhaps_wait(word)
        if word in ("TTOU", "WINCH"):
            # So that requests have somebody to wait for.
            self.hup()

    def burst(self) -> None:
        for _ in range(self.chance.randint(2, 8)):
            self.say(self.chance.choice(["HUP", "HUP", "TTIN", "tick", "USR1"]))

    def ask(self) -> None:
        if self.chance.random() < 0.8:
            self.say("status")
        else:
            status, said = self.service.told("certify")
            self.counts[f"certify: {status}"] += 1
            # (a record may be written at this very moment, and is on a disk that is full sometimes)
            self.service.check(f"certify: {said[-1500:]}", status != 5)

    # What goes wrong.

    def victim(self, kinds: tuple[str, ...]) -> tuple[str, int]:
        found = {kind: numbers for kind, numbers in self.service.processes().items() if kind in kinds}
        kind = self.chance.choice(sorted(found)) if found else ""
        return kind, self.chance.choice(sorted(found[kind])) if found else 0

    def kill(self) -> None:
        """Kills a process, often while a word is carried out."""
        if self.chance.random() < 0.5:
            self.say("HUP")
            time.sleep(self.chance.uniform(0, 1.0))
        kind, process = self.victim(KILLED)
        if not process:
            return
        before = time.monotonic()
        if signal_to(process, signal.SIGKILL):
            self.counts[f"killed {kind}"] += 1
            if kind in OF_WORKERS:
                self.service.note_killing(before, time.monotonic() + 1.0)

    def halt(self) -> None:
        """Stops a process for a while."""
        kind, process = self.victim(STOPPED)
        if not process:
            return
        self.counts[f"stopped {kind}"] += 1
        signal_to(process, signal.SIGSTOP)
        time.sleep(self.chance.uniform(0, LONGEST_STOP))
        signal_to(process, signal.SIGCONT)

    def full_disk(self) -> None:
        """No room for the folder, while a word is carried out or a worker is killed."""
        if not self.service.disk.is_own:
            return
        self.service.disk.fill()
        self.chance.choice([self.kill, self.word, self.hup])()
        time.sleep(self.chance.uniform(0, LONGEST_STOP))
        self.service.disk.free()

    def remove(self) -> None:
        """Somebody removes a file of the folder."""
        place = self.service.run / self.chance.choice(REMOVED)
        if place.is_dir():
            shutil.rmtree(place, ignore_errors=True)
        else:
            place.unlink(missing_ok=True)
        # (what asks by a path finds it again after a moment)
        time.sleep(3.0)

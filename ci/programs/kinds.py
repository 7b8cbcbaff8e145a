"""What is done with each program: a life with all that an operator does, kills and stops, and a program that hangs."""
import concurrent.futures
import functools
import os
import signal
import threading
import time
from collections.abc import Callable
from typing import Any

import kit
import setups
from gate.addresses import free_address, ipv6_beside
from gate.waiting import comes, until
from programs.clients import Knocking
from programs.run import ANSWERS_500, HOLDER, Run, below, family_of, is_alive, text_in

HUPS = 5
BROKEN = ("does not load", "exits", "hangs")
# For workers that are stopped: how long one may owe an answer, and how long it may finish.
ANSWER_SECONDS, FINISH_SECONDS = "4", "4"
# For reloads in steps: how many workers there are, and how many new ones start in each step.
STEPPED, SURGES = 16, (1, 2, 5, 16)


class Life(Run):
    """Each version is a release of its own, to which a symbolic link leads. Under load: a reload, reloads and an upgrade
    to more addresses, in another order, and to fewer, and a release that does not start. Then it moves to another address
    and back, and stops while 200 new connections a second come. The other address is of IPv6, on the same port, where the
    machine has that."""

    def addresses_of_life(self) -> tuple[str, str]:
        """That which has the load, and the other one."""
        if not (six := ipv6_beside(self.address)):
            self.notes.append("no IPv6 loopback")
        return self.address, six or free_address()

    def go(self) -> None:
        first, second = self.addresses_of_life()
        self.address, self.addresses = first, (first,)
        self.begin()
        self.begin_load()
        self.goes_over("HUP")
        if self.setup.takes_all:
            for word, to in (("HUP", (first, second)), ("USR2", (second, first)), ("HUP", (first,))):
                self.goes_over(word, *to)
        self.rolls_back("does not load")
        self.end_load()
        for word, address in (("HUP", second), ("USR2", first)):
            self.goes_over(word, address)
        self.stops_under_knocks()

    def stops_under_knocks(self) -> None:
        """Each new connection is answered or refused. What holds a program passes on no signal: its worker has it go
        on."""
        with Knocking(functools.partial(self.ask, self.address)) as knocking:
            until("fifty answers", lambda: knocking.told["answered"] >= 50)
            for holder in [number for worker in self.workers() for number in below(worker, HOLDER)]:
                os.kill(holder, signal.SIGSTOP)
            self.stop()
            until("fifty refusals", lambda: knocking.told["refused"] >= 50)
        self.notes.append(f"QUIT: {knocking.summary()}")
        wrong = set(knocking.told) - {"answered", "refused"}
        lost = [f"{self.setup.name}: QUIT: {knocking.summary()}"] if wrong else []
        self.tally.check_lost(lost)
        self.check(f"QUIT: {knocking.answered_late} were answered after a refusal", not knocking.answered_late)


class Life6(Life):
    """The same life at an IPv6 address; the other one is dotted."""

    def addresses_of_life(self) -> tuple[str, str]:
        first, second = super().addresses_of_life()
        return second, first


class Probed(Run):
    """A version that answers its probe with 500 is rolled back at HUP and at USR2, and no client is ever answered by it. A
    program that accepts from its start is tried first, away from the sockets."""

    def options(self) -> list[str]:
        return [*super().options(), "--ready", "probe", "/"]

    def go(self) -> None:
        self.begin()
        self.begin_load()
        if self.setup.probed == setups.FROM_START:
            self.rolls_back(ANSWERS_500, "try HUP", "failed not-ready")
            self.goes_over("HUP")
            self.end_load()
            self.rolls_back(ANSWERS_500)
        else:
            for word in ("HUP", "USR2"):
                self.rolls_back(ANSWERS_500, word)
            self.goes_over("HUP")
            self.end_load()
        self.stop()


class Reloads(Run):
    """Five reloads and an upgrade under load, and each way in which a release does not start. All of it is certified."""

    def go(self) -> None:
        self.begin()
        self.begin_load()
        for _ in range(HUPS):
            self.goes_over("HUP")
        for breaks in BROKEN:
            self.rolls_back(breaks)
        # (it is waited for once, and not for each worker and each of its tries: that would take longer than a word may)
        self.rolls_back("hangs", "USR2")
        self.goes_over("USR2")
        self.end_load()
        self.stop()
        self.certify()


class Steps(Run):
    """Reloads of sixteen workers in steps of one, two, five and all, under load, and releases that do not start. There are never
    more workers than those that are wanted and one step."""

    surge = SURGES[0]

    def configure(self, *addresses: str, **more: Any) -> None:
        super().configure(*addresses, workers=STEPPED, surge=self.surge, **more)

    def go(self) -> None:
        self.begin()
        self.begin_load()
        for self.surge in SURGES:
            before, most = set(self.workers()), self.most_meanwhile(lambda: self.goes_over("HUP"))
            self.check(f"surge {self.surge}: {most} workers ran at once", most <= STEPPED + self.surge)
            self.check(f"surge {self.surge}: old workers are left", not before & set(self.workers()))
            self.notes.append(f"surge {self.surge}: at most {most} workers")
        for breaks in BROKEN[:2]:
            most = self.most_meanwhile(lambda: self.rolls_back(breaks))
            self.check(f"{breaks}: {most} workers ran at once", most <= STEPPED + self.surge)
        self.end_load()
        self.stop()

    def most_meanwhile(self, do: Callable[[], None]) -> int:
        """The most workers that are seen at once while something is done."""
        most, is_over = 0, threading.Event()

        def look() -> None:
            nonlocal most
            while not is_over.is_set():
                most = max(most, len(self.workers()))
                time.sleep(0.02)
        looking = threading.Thread(target=look, daemon=True)
        looking.start()
        try:
            do()
        finally:
            is_over.set()
            looking.join()
        return most


class Pieces(Run):
    """Each process of a worker is killed, and nothing of the worker is left, and another one serves; then each is stopped,
    and after QUIT nothing is left and nobody serves."""

    def options(self) -> list[str]:
        return [*super().options(), "--answer-within", ANSWER_SECONDS, "--finish", FINISH_SECONDS]

    def go(self) -> None:
        self.begin(workers=4)
        self.have_all()
        killed = [(chain[depth], family_of(chain[0]), depth) for depth, chain in enumerate(self.chains()) if depth < len(chain)]
        for number, _, _ in killed:
            os.kill(number, signal.SIGKILL)
        for number, family, depth in killed:
            gone = family if depth < 3 else [number]
            ends = comes(lambda: not any(map(is_alive, gone)))
            self.check(f"a killed process {depth} leaves {[one for one in gone if is_alive(one)]}", ends)
        self.have_all()
        self.check("nobody serves after kills", comes(lambda: self.is_served(self.address)))
        for depth, chain in enumerate(self.chains()):
            if depth < len(chain):
                os.kill(chain[depth], signal.SIGSTOP)
        self.stop()

    def have_all(self) -> None:
        """Four workers, each with as many processes as it has: some programs have children of their own."""
        until("four workers", lambda: len(self.chains()) == 4 and len({len(chain) for chain in self.chains()}) == 1)


class Hanging(Run):
    """A program that stops serving: it misses its beats, and a tick replaces it. After an upgrade no ticks are told to
    it, and its adapter ends by itself."""

    def go(self) -> None:
        self.begin(timeout=6)
        self.replaces_one("by a tick")
        is_killed = comes(lambda: " m1 kill 1.1 " in text_in(self.folder / "blocks"))
        self.check("no tick has killed the worker that hangs", is_killed)
        status, block = self.sent("USR2")
        self.check(f"USR2: status {status}: {block}", status == 0)
        self.replaces_one("after an upgrade")
        self.stop()
        self.certify()

    def programs(self) -> set[int]:
        running = self.mark.processes().items()
        return {number for number, words in running if words[:1] == [kit.PYTHON] and words[-1].endswith("/page.py")}

    def replaces_one(self, when: str) -> None:
        before = self.programs()
        self.check(f"{when}: {before} run", len(before) == 2)
        with concurrent.futures.ThreadPoolExecutor(1) as pool:
            stuck = pool.submit(self.page, self.address, "/stuck")
            until("another program", lambda: len(self.programs() & before) == 1 and len(self.programs()) == 2)
            self.check(f"{when}: a stuck request was answered: {stuck.result()}", "version" not in stuck.result())
        until("a page", lambda: self.page(self.address).startswith("version "))


HANGING = setups.Setup(
    "a program that hangs", ["--ready", "probe", "/", "--probe-within", "1", "--probe-limit", "20"],
    f"{kit.PYTHON} @SITE@/page.py", {}, "page.py",
)

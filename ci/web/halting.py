"""Halts a master where it begins a call of its plan, as a debugger does, and does something there.

A master begins a call with a line to a worker or to a new master, or with a wait for one of them. Both are seen at its system
calls (ptrace), so nothing is altered for it in the master or in the service. What it writes last is the block.
"""
import ctypes
import os
import platform
import re
import signal
import struct
import threading
from collections.abc import Callable
from typing import NamedTuple

from gate.waiting import SECONDS, Wrong

# What is asked of ptrace, and how it marks the stop at a system call.
SYSCALL, DETACH, SEIZE, INTERRUPT, GET_SYSCALL_INFO = 24, 17, 0x4206, 0x4207, 0x420E
TRACESYSGOOD, AT_SYSCALL, ALL = 1, signal.SIGTRAP | 0x80, 0x40000000
# What is told of a stop: whether it is the begin or the end of a system call, and after 24 bytes its number with its arguments,
# or its result.
BEGIN, END, TOLD = 1, 2, 80
# The numbers of read, write, and poll or ppoll.
NUMBERS = {"x86_64": (0, 1, 7), "aarch64": (63, 64, 73)}
READ, WRITE, POLL = NUMBERS.get(platform.machine(), (-1, -1, -1))
LIBC = ctypes.CDLL(None, use_errno=True)
LIBC.ptrace.argtypes, LIBC.ptrace.restype = [ctypes.c_long, ctypes.c_long, ctypes.c_void_p, ctypes.c_void_p], ctypes.c_long
# With which lines calls begin. Some have a line to each worker, and together these are one call.
BEGINS = {
    "worker": "fork", "quit": "quit", "handover": "spawn-master", "alive": "alive", "ping": "census", "tick": "tick",
    "close": "close",
}
TO_EACH = ("census", "tick", "close", "report")
# A call that another master makes, after its name.
PASSED_ON = re.compile(r"m\d+")
# After which calls a wait is a call of its own.
AWAITS = {"fork": "await-ready", "await-ready": "await-ready", "quit": "await-gone", "await-gone": "await-gone"}


class Point(NamedTuple):
    """The N-th call of a word, and what it is."""

    word: str
    place: int
    call: str

    def __str__(self) -> str:
        return f"{self.word} {self.place} {self.call}"


class Calls:
    """Which call a master makes, by what it hears, writes and waits for."""

    def __init__(self) -> None:
        self.word, self.call, self.place = "", "", 0
        # Where it waits, and whether another master makes the call.
        self.waited, self.is_passed_on = -1, False

    def hears(self, text: str) -> None:
        """The word that is told."""
        self.word, self.call, self.place, self.waited = (text.split() or [""])[0], "", 0, -1

    def begins(self, call: str, is_passed_on: bool = False) -> Point:
        self.call, self.place, self.waited, self.is_passed_on = call, self.place + 1, -1, is_passed_on
        return Point(self.word, self.place, call)

    def writes(self, number: int, text: str) -> Point | None:
        """It writes this to a descriptor; the call that begins so."""
        first, *rest = text.split() or [""]
        if number != 1 and PASSED_ON.fullmatch(first):
            return self.begins(rest[0], True)
        call = "report" if number == 1 else BEGINS.get(first)
        return self.begins(call) if call and not (call == self.call and call in TO_EACH) else None

    def waits(self, number: int) -> Point | None:
        """It waits at a descriptor; the call that begins so."""
        call, is_there = AWAITS.get(self.call), number == self.waited
        found = self.begins(call) if call and not is_there and not self.is_passed_on else None
        self.waited = number
        return found


def ptrace(request: int, process: int, address: int = 0, data: int = 0) -> None:
    """Raises OSError."""
    if LIBC.ptrace(request, process, address, data) == -1:
        number = ctypes.get_errno()
        raise OSError(number, f"ptrace: {os.strerror(number)}")


class Halt:
    """A master that is halted where it begins a call. There `act` is done, and it goes on if it still runs."""

    def __init__(self, master: int, point: Point, act: Callable[[], None]):
        self.master, self.point, self.act = master, point, act
        self.calls = Calls()
        self.begun: tuple[int, tuple[int, ...]] = -1, (0,) * 6
        self.fault: Exception | None = None
        self.is_given_up, self.is_reached = False, False
        self.is_attached, self.thread = threading.Event(), threading.Thread(target=self.follow, daemon=True)
        self.thread.start()
        if not self.is_attached.wait(SECONDS) or self.fault:
            raise Wrong(f"{master} is not halted: {self.fault}")

    def is_over(self) -> bool:
        """Whether the call was reached, or never will be."""
        if self.fault:
            raise self.fault
        return not self.thread.is_alive()

    def end(self) -> None:
        """Lets go of a master that has not come there. It has a tick each second."""
        self.is_given_up = True
        self.thread.join(SECONDS)

    def follow(self) -> None:
        """(only the thread that has begun it may ask ptrace)"""
        try:
            if READ < 0:
                raise Wrong(f"the numbers of system calls are not known for {platform.machine()}")
            ptrace(SEIZE, self.master, data=TRACESYSGOOD)
            ptrace(INTERRUPT, self.master)
            while self.goes_on(os.waitpid(self.master, ALL)[1]):
                self.is_attached.set()
        except Exception as fault:
            self.fault = fault
        self.is_attached.set()

    def goes_on(self, status: int) -> bool:
        """Takes a stop; whether there is another one."""
        if not os.WIFSTOPPED(status):
            return False
        stop, passed = os.WSTOPSIG(status), 0
        if stop == AT_SYSCALL:
            if self.calls_at_stop() == self.point:
                self.is_reached = True
                self.act()
                self.let_go()
                return False
        elif not status >> 16:
            passed = stop
        if self.is_given_up:
            self.let_go()
            return False
        ptrace(SYSCALL, self.master, data=passed)
        return True

    def calls_at_stop(self) -> Point | None:
        """The call that begins here."""
        told = ctypes.create_string_buffer(TOLD)
        ptrace(GET_SYSCALL_INFO, self.master, TOLD, ctypes.addressof(told))
        if told.raw[0] == BEGIN:
            number, *given = struct.unpack_from("=7Q", told.raw, 24)
            self.begun = number, tuple(given)
            if number == WRITE and given[0] != 2:
                return self.calls.writes(given[0], self.text(given[1], given[2]))
            if number == POLL:
                return self.calls.waits(struct.unpack("=i", self.bytes_at(given[0], 4))[0])
        elif told.raw[0] == END:
            number, given = self.begun[0], list(self.begun[1])
            count = struct.unpack_from("=q", told.raw, 24)[0]
            if number == READ and given[0] == 0 and count > 0:
                self.calls.hears(self.text(given[1], count))
        return None

    def text(self, place: int, count: int) -> str:
        return self.bytes_at(place, count).decode(errors="replace")

    def bytes_at(self, place: int, count: int) -> bytes:
        with open(f"/proc/{self.master}/mem", "rb", 0) as memory:
            memory.seek(place)
            return memory.read(count)

    def let_go(self) -> None:
        """It goes on, or has been killed, also by what was done here: then this process must hear of its end first."""
        try:
            ptrace(DETACH, self.master)
        except ProcessLookupError:
            while os.WIFSTOPPED(os.waitpid(self.master, ALL)[1]):
                pass

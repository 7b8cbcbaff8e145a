"""What prefork-serve tells prefork-watch, a process beside it that tells everybody else: events, as lines of JSON.

Nobody waits for prefork-watch. It may end or hang at any moment, and is started again, after a longer pause each time. What
it has not taken by then is told again, up to a bound: what has no room is dropped and counted, and the state of the service
is told anew in any case. It answers each line with its number, which is its sign of life too.

Those that ask for the status, or wait for the reasons of a word, are handed over: it has their connections.
"""
import collections
import json
import os
import selectors
import socket
import subprocess
import time
from collections.abc import Callable
from typing import Any

from . import places
from .burying import started
from .folder import plain, say
from .systemd import OF_SYSTEMD

# How many bytes of events may wait for it, how many words are told again after its start, and how often an event is told.
MOST_WAITING_BYTES, MOST_TOLD_WORDS, MOST_TELLINGS = 4 << 20, 20, 3
# The pause before another start, which doubles; how long it has to run for the first pause to hold again.
WATCH_FIRST_SECONDS, WATCH_MOST_SECONDS, STEADY_SECONDS = 0.25, 60.0, 60.0
# How often it is asked for a sign of life, how long it may owe that, and the least time between two states.
PING_SECONDS, WATCH_HANG_SECONDS, STATE_SECONDS = 5.0, 30.0, 0.1
# How long it may take at the very end, once nobody waits for the service any more.
WATCH_END_SECONDS = 3.0
LONGEST_WATCH_LINE = 4096
Message = dict[str, Any]
# It lags if this many bytes wait for it, or it has owed an answer for this long: who asks is not handed over then.
BEHIND_BYTES, BEHIND_SECONDS = 1 << 20, 10.0
# What is asked for those that wait for the reasons of a word.
NOTES = "notes"


class Event:
    """What was not taken yet: the number of its line, its bytes, and how often it was told."""

    def __init__(self, told: Message):
        self.told, self.size, self.number, self.tries = told, len(json.dumps(told)), 0, 0


class Feed:
    """prefork-watch, and what it is told. `hello` is what never changes, and `state` what does."""

    def __init__(self, events: selectors.BaseSelector, hello: Message, state: Callable[[], Message], notify: Callable[[str], None]):
        self.events, self.hello, self.state, self.notify = events, hello, state, notify
        self.queue: collections.deque[Event] = collections.deque()
        self.words: collections.deque[Message] = collections.deque(maxlen=MOST_TOLD_WORDS)
        self.number, self.dropped, self.taken = 0, 0, 0
        self.process: subprocess.Popen[bytes] | None = None
        self.ended: subprocess.Popen[bytes] | None = None
        self.stream: Any = None
        self.askers: Any = None
        self.unsent, self.unheard, self.last_state = bytearray(), b"", dict[str, Any]()
        self.pause, self.begun, self.due, self.asked, self.heard = WATCH_FIRST_SECONDS, 0.0, 0.0, 0.0, 0.0
        self.next_state, self.restarts = 0.0, 0

    # The process.

    def tend(self) -> None:
        """Starts it if it does not run, kills it if it hangs, and tells it what has changed."""
        now = time.monotonic()
        if self.ended and self.ended.poll() is not None:
            self.ended = None
        if not self.process:
            if now >= self.due and not self.ended:
                self.begin()
            return
        if now - self.asked >= PING_SECONDS and not self.unsent:
            self.asked = now
            self.put({"kind": "ping"})
        if self.taken < self.number and now - self.heard > WATCH_HANG_SECONDS:
            say(f"prefork-watch has not answered for {WATCH_HANG_SECONDS:g} seconds")
            self.bury()
            return
        if now >= self.next_state:
            self.tell_state()

    def begin(self) -> None:
        self.begun = self.heard = self.asked = time.monotonic()
        self.due = self.begun + self.pause
        self.stream, stream = socket.socketpair(socket.AF_UNIX, socket.SOCK_STREAM)
        self.askers, askers = socket.socketpair(socket.AF_UNIX, socket.SOCK_SEQPACKET)
        environment = {name: text for name, text in os.environ.items() if not name.startswith(OF_SYSTEMD)}
        command = [*places.in_python(places.WATCH), str(stream.fileno()), str(askers.fileno()), str(os.getpid())]
        given: Message = {"pass_fds": [stream.fileno(), askers.fileno()], "start_new_session": True, "env": environment}
        try:
            self.stream.setblocking(False)
            self.askers.setblocking(False)
            self.events.register(self.stream, selectors.EVENT_READ, self.hear)
            self.process = started(command, stdin=subprocess.DEVNULL, stdout=subprocess.DEVNULL, **given)
        except OSError as fault:
            say(f"prefork-watch is not started: {fault.strerror}")
            self.close()
            self.pause = min(2 * self.pause, WATCH_MOST_SECONDS)
            return
        finally:
            stream.close()
            askers.close()
        try:
            self.unsent, self.unheard, self.last_state = bytearray(), b"", dict[str, Any]()
            self.put({"kind": "hello", **self.hello, "restarts": self.restarts})
            self.tell_again()
        except Exception:
            # It would know half of it.
            self.bury()
            raise

    def tell_again(self) -> None:
        """Tells the state, the last words, and what the one before has not taken. What has ended it again and again is
        dropped."""
        poison = [event for event in self.queue if event.tries >= MOST_TELLINGS]
        self.dropped += len(poison)
        for event in poison:
            self.queue.remove(event)
            if event.told in self.words:
                self.words.remove(event.told)
        self.put_state()
        for told in self.words:
            if not any(event.told is told for event in self.queue):
                self.put({**told, "again": True})
        for event in self.queue:
            event.number, event.tries = self.put(event.told), event.tries + 1

    def bury(self) -> None:
        """It has ended, or is of no use any more."""
        process, self.process, self.ended = self.process, None, self.process
        self.close()
        if process:
            process.kill()
        now = time.monotonic()
        self.pause = WATCH_FIRST_SECONDS if now - self.begun > STEADY_SECONDS else min(2 * self.pause, WATCH_MOST_SECONDS)
        self.due, self.restarts = now + self.pause, self.restarts + 1
        say(f"prefork-watch has ended, and is started again in {self.pause:g} s")

    def close(self) -> None:
        for one in (self.stream, self.askers):
            if one and one.fileno() >= 0:
                if one in self.events.get_map():
                    self.events.unregister(one)
                one.close()

    def forsake(self, _: socket.socket) -> None:
        self.bury()

    def hear(self, _: socket.socket) -> None:
        """Which lines it has taken, and what systemd is to show."""
        try:
            got = self.stream.recv(LONGEST_WATCH_LINE)
        except BlockingIOError:
            return
        except OSError:
            got = b""
        if not got:
            self.bury()
            return
        self.heard = time.monotonic()
        *lines, self.unheard = (self.unheard + got).split(b"\n")
        self.unheard = self.unheard[:LONGEST_WATCH_LINE]
        for line in lines:
            kind, _, text = line.decode("utf-8", "replace").partition(" ")
            if kind == "took" and text.isdecimal():
                self.take(int(text))
            elif kind == "status":
                self.notify(f"STATUS={plain(text)}")
        self.flush()

    def take(self, number: int) -> None:
        self.taken = number
        while self.queue and self.queue[0].number <= number:
            self.queue.popleft()

    # What it is told.

    def put(self, told: Message) -> int:
        """Sends a line as soon as that is possible; its number."""
        if self.taken >= self.number:
            self.heard = time.monotonic()
        self.number += 1
        self.unsent += json.dumps({**told, "n": self.number}).encode() + b"\n"
        self.flush()
        return self.number

    def flush(self) -> None:
        while self.process and self.unsent:
            try:
                del self.unsent[: self.stream.send(self.unsent)]
            except OSError:
                # It is full; or the end is heard, too.
                return

    def tell(self, kind: str, told: Message) -> Event:
        """Tells an event, now or to the next one."""
        event = Event({"kind": kind, **told})
        if sum(other.size for other in self.queue) + event.size > MOST_WAITING_BYTES:
            self.dropped += 1
            return event
        self.queue.append(event)
        if self.process:
            event.number, event.tries = self.put(event.told), 1
        return event

    def tell_word(self, told: Message, is_kept: bool) -> int:
        """Tells a word that has ended, after the state that it has led to; the number of that line, or 0."""
        self.put_state()
        event = self.tell("word", told)
        if is_kept:
            self.words.append(event.told)
        return event.number

    def tell_state(self) -> None:
        """Tells how the service is, if it keeps up."""
        if self.process and not self.unsent:
            self.next_state = time.monotonic() + STATE_SECONDS
            self.put_state()

    def put_state(self) -> None:
        """Tells how the service is, if that is another state than the one that was told last."""
        if not self.process:
            return
        state = {**self.state(), "dropped": self.dropped, "restarts": self.restarts}
        if state != self.last_state:
            self.last_state = state
            self.put({"kind": "state", **state})

    def is_behind(self) -> bool:
        """Whether it does not run, or would answer nobody soon."""
        owes = self.taken < self.number and time.monotonic() - self.heard > BEHIND_SECONDS
        return not self.process or owes or len(self.unsent) > BEHIND_BYTES

    def hand_over(self, askers: list[socket.socket], text: str, number: int = 0) -> bool:
        """Hands those over that ask something, or wait for the reasons of a word with this number; whether that was
        possible."""
        if self.is_behind() or not askers:
            return False
        if not number:
            self.put_state()
        try:
            told = json.dumps([number or self.number, text]).encode()
            socket.send_fds(self.askers, [told], [one.fileno() for one in askers])
        except OSError:
            return False
        return True

    def end(self) -> None:
        """The service has ended: the last words may be told for a moment."""
        if not self.process:
            return
        process, self.process = self.process, None
        self.stream.setblocking(True)
        self.stream.settimeout(WATCH_END_SECONDS)
        try:
            self.stream.sendall(self.unsent)
        except OSError:
            pass
        self.close()
        try:
            process.wait(WATCH_END_SECONDS)
        except subprocess.TimeoutExpired:
            process.kill()
            process.wait()

"""prefork-read, as prefork-serve starts it: it reads a configuration for a word, and nobody waits for it.

What it says is taken once it is whole. One that fails, or takes too long, has the word refused.
"""
import json
import os
import selectors
import subprocess
import time
from collections.abc import Callable
from typing import Any

from . import places
from .burying import started
from .configuration import Configuration, configuration_in
from .systemd import OF_SYSTEMD

# How long it may take, and how many bytes it may say.
READING_SECONDS, MOST_READING_BYTES = 30.0, 64 << 20
NOT_HEARD = "prefork-read is not heard"


class ReaderProcess:
    """What reads the configuration. `take` is given what it has found, or nothing, and why."""

    def __init__(self, events: selectors.BaseSelector, asked: dict[str, Any], take: Callable[[Configuration | None, str], None]):
        self.events, self.asked, self.take = events, asked, take
        # The process and its output while a word waits for it; those that are to be buried.
        self.process: subprocess.Popen[bytes] | None = None
        self.ended: list[subprocess.Popen[bytes]] = []
        self.output, self.said, self.until = -1, bytearray(), 0.0
        # Whether what it finds is still to be taken.
        self.owes = False

    def begin(self) -> None:
        """Starts it. Raises OSError."""
        self.end()
        environment = {name: text for name, text in os.environ.items() if not name.startswith(OF_SYSTEMD)}
        asked = os.memfd_create("asked")
        try:
            os.write(asked, json.dumps(self.asked).encode())
            os.lseek(asked, 0, os.SEEK_SET)
            self.output, theirs = os.pipe()
            try:
                os.set_blocking(self.output, False)
                self.events.register(self.output, selectors.EVENT_READ, self.hear)
                command = [places.READ, str(os.getpid())]
                self.process = started(command, stdin=asked, stdout=theirs, start_new_session=True, env=environment)
            finally:
                os.close(theirs)
        except OSError:
            self.end()
            raise
        finally:
            os.close(asked)
        self.owes, self.until = True, time.monotonic() + READING_SECONDS

    def hear(self, output: int) -> None:
        try:
            got = os.read(output, 1 << 16)
        except BlockingIOError:
            return
        except OSError as fault:
            self.give_up(f"prefork-read is not heard: {fault.strerror}")
            return
        self.said += got
        if not got:
            self.finish()
        elif len(self.said) > MOST_READING_BYTES:
            self.give_up("it is too long")

    def finish(self) -> None:
        """It has said all that it says."""
        said = bytes(self.said)
        self.drop(kills=False)
        try:
            found = configuration_in(json.loads(said))
        except Exception:
            self.tell(None, "prefork-read has failed")
            return
        self.tell(found, "")

    def give_up(self, why: str) -> None:
        self.drop()
        self.tell(None, why)

    def tell(self, found: Configuration | None, why: str) -> None:
        self.take(found, why)
        self.owes = False

    def forsake(self, _: int) -> None:
        """What it says has raised again and again."""
        self.give_up(NOT_HEARD)

    def tend(self) -> None:
        """Gives it up if it takes too long, or if a fault has kept what it has found from the word; and buries those that have
        ended."""
        self.ended = [one for one in self.ended if one.poll() is None]
        if self.owes and not self.process:
            self.give_up(NOT_HEARD)
        elif self.owes and time.monotonic() > self.until:
            self.give_up(f"it has not been read within {READING_SECONDS:g} seconds")

    def end(self) -> None:
        """Nobody waits for it any more."""
        self.owes = False
        self.drop()

    def drop(self, kills: bool = True) -> None:
        """Hears it no longer."""
        process, self.process, self.said = self.process, None, bytearray()
        output, self.output = self.output, -1
        if output >= 0:
            if output in self.events.get_map():
                self.events.unregister(output)
            os.close(output)
        if process:
            self.ended.append(process)
            if kills:
                process.kill()

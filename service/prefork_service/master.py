"""The master of a service, `prefork supervise`: the blocks that it prints, and the questions that it asks."""
import os
import select
import socket
import subprocess
import sys
import time
from collections.abc import Callable
from typing import Any

from . import places
from .blocks import WORD, beat_of, ends_block, killed_in, logged, question_in
from .burying import started
from .folder import Folder

# How long it may take to end once it has closed its output.
MASTER_END_SECONDS = 10.0


class Master:
    """A master that runs. Each block that it prints is given to `keep`. Its standard error is read too, for what it
    asks: `--verbose` says that there.

    One that is bound is killed when this process ends, and does not see the end of its input before that: it would tell its
    workers to quit. So it has a copy of our end of its input."""

    def __init__(self, command: list[str], folder: Folder, keep: Callable[[str], object], is_bound: bool = False):
        self.keep, self.unread = keep, ""
        # The lines of a block that is not complete yet.
        self.block: list[str] = []
        # The moment at which each worker has beaten last.
        self.beats: dict[int, int] = {}
        # Whom it has killed since this was looked at, and why.
        self.killed: dict[str, str] = {}
        # What was read of a line of its standard error, and whether that has ended.
        self.unread_errors, self.is_silent = b"", False
        # In a session of its own: ^C in a terminal is a word to the service, and does not end its master.
        self.input, theirs = socket.socketpair()
        copies = [os.dup(self.input.fileno())] if is_bound else []
        bound = [str(places.LAUNCH), "bound", str(os.getpid())] if is_bound else []
        pipes: dict[str, Any] = {"stdin": theirs, "stdout": subprocess.PIPE, "stderr": subprocess.PIPE}
        try:
            self.process: Any = started([*bound, *command], **pipes, start_new_session=True, pass_fds=[folder.lock, *copies])
        except OSError:
            self.input.close()
            raise
        finally:
            theirs.close()
            for copy in copies:
                os.close(copy)
        self.output, self.errors = self.process.stdout.fileno(), self.process.stderr.fileno()
        os.set_blocking(self.errors, False)

    def tell(self, word: str) -> None:
        try:
            self.input.sendall(f"{word}\n".encode())
        except (BrokenPipeError, ConnectionResetError):
            # It has ended, or hears nothing any more. The end of its output says so.
            self.process.kill()

    def hear(self) -> list[str] | None:
        """The blocks that are complete, without those of beats; None at the end of the output."""
        got = os.read(self.output, 65536)
        if not got:
            return None
        *lines, self.unread = (self.unread + got.decode()).split("\n")
        return [block for line in lines if (block := self.take(line))]

    def take(self, line: str) -> str | None:
        """Takes a line; the block that it completes, if it is not that of a beat."""
        self.block.append(line)
        if not ends_block(line):
            return None
        block, self.block = self.block, []
        text = "".join(f"{line}\n" for line in block)
        self.keep(text)
        if beat := beat_of(block[0].removeprefix(WORD)):
            self.beats[beat[0]] = beat[1]
        return None if beat else text

    def hear_errors(self) -> list[int]:
        """The questions that it has asked. What is no line of its log is for people, and passed on."""
        found = []
        while got := self.read_errors():
            *lines, self.unread_errors = (self.unread_errors + got).split(b"\n")
            for line in lines:
                said = logged(line.decode("latin-1"))
                if said is None:
                    pass_on(line + b"\n")
                elif ended := killed_in(said):
                    self.killed[ended[0]] = ended[1]
                elif asked := question_in(said):
                    found.append(asked)
        return found

    def read_errors(self) -> bytes:
        """What it has said; nothing if that is all for now, or its end."""
        try:
            got = os.read(self.errors, 65536)
        except BlockingIOError:
            return b""
        self.is_silent = not got
        return got

    def finish(self, seconds: float | None = None) -> bool:
        """Waits for the end of a master that has been told to stop; whether it has ended within some seconds. Otherwise it
        is killed."""
        self.end_input()
        deadline, watched = time.monotonic() + (seconds or 0.0), select.poll()
        watched.register(self.output, select.POLLIN)
        is_over = False
        while not is_over:
            left = None if seconds is None else max(0.0, deadline - time.monotonic())
            if not watched.poll(None if left is None else left * 1000):
                self.process.kill()
                self.close()
                return False
            is_over = self.hear() is None
        self.close()
        return True

    def end_input(self) -> None:
        """Ends its input, for all copies of our end."""
        try:
            self.input.shutdown(socket.SHUT_WR)
        except OSError:
            # It has ended.
            pass

    def close(self) -> int:
        """Its status, once it has ended; what it said last is passed on."""
        self.end_input()
        status = self.ended()
        self.input.close()
        self.hear_errors()
        pass_on(self.unread_errors)
        self.process.stdout.close()
        self.process.stderr.close()
        return status

    def ended(self) -> int:
        """The status of a master that has closed its output, and is killed if it does not end."""
        try:
            return int(self.process.wait(MASTER_END_SECONDS))
        except subprocess.TimeoutExpired:
            self.process.kill()
            return int(self.process.wait())


def pass_on(text: bytes) -> None:
    try:
        sys.stderr.buffer.write(text)
        sys.stderr.buffer.flush()
    except (OSError, AttributeError):
        # A standard error that is full, or has no reader, is no reason to serve nobody.
        pass

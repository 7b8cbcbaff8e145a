"""How far a word is, shown while prefork-ctl waits for it: at a terminal in a line that moves, elsewhere in a line now and
then."""
import threading
from collections.abc import Callable
from typing import Any, TextIO

# How often it is asked at a terminal, and elsewhere; and how a line of a terminal is cleared.
TERMINAL_SECONDS, SELDOM_SECONDS = 0.5, 10.0
CLEAR_LINE = "\r\033[K"


class Follower:
    """A thread that asks for the status up to the end of a `with`. What goes wrong with that is no fault of the word."""

    def __init__(self, ask: Callable[[], dict[str, Any]], output: TextIO):
        self.ask, self.output, self.is_over = ask, output, threading.Event()
        self.thread = threading.Thread(target=self.run, daemon=True)
        self.lock, self.is_drawn = threading.Lock(), False

    def __enter__(self) -> "Follower":
        self.thread.start()
        return self

    def __exit__(self, *_: object) -> None:
        self.is_over.set()
        self.clear()

    def clear(self) -> None:
        """Takes the line away, before something else is said."""
        with self.lock:
            if self.is_drawn:
                self.put(CLEAR_LINE)
            self.is_drawn = False

    def run(self) -> None:
        is_terminal = self.output.isatty()
        while not self.is_over.wait(TERMINAL_SECONDS if is_terminal else SELDOM_SECONDS):
            try:
                progress = self.ask().get("progress")
            except (OSError, ValueError):
                continue
            with self.lock:
                if progress and not self.is_over.is_set():
                    self.put(f"{CLEAR_LINE}{progress['line']}" if is_terminal else f"prefork-ctl: {progress['line']}\n")
                    self.is_drawn = is_terminal

    def put(self, text: str) -> None:
        try:
            self.output.write(text)
            self.output.flush()
        except (OSError, ValueError):
            pass

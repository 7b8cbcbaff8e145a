"""What costs something to find out, and is asked by many at a time."""
import time
from collections.abc import Callable
from typing import Any, Generic, TypeVar

Found = TypeVar("Found")
# How long something is remembered at least, and how much longer than it took to find out: others have the rest of the time.
REMEMBER_SECONDS, REMEMBER_TIMES = 0.1, 5.0


class Remembered(Generic[Found]):
    """What was found out last, by a key: with another key it is looked again."""

    def __init__(self) -> None:
        self.key: Any = None
        self.found: Any = None
        self.moment, self.until = 0.0, 0.0

    def get(self, look: Callable[[], Found], key: Any, seconds: float = 0.0) -> Found:
        """What is no older than some seconds is recent enough for the one who asks."""
        begun = time.monotonic()
        if key != self.key or begun >= max(self.until, self.moment + seconds) or self.found is None:
            self.found, self.key = look(), key
            self.moment = now = time.monotonic()
            self.until = now + max(REMEMBER_SECONDS, REMEMBER_TIMES * (now - begun))
        found: Found = self.found
        return found

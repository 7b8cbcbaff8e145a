"""When the master is told a tick."""
import time

# The least time between two ticks, for how many workers there is one each second, and the most. A tick costs the master
# and each worker some system calls.
TICK_LEAST_SECONDS, EACH_SECOND, TICK_MOST_SECONDS = 1.0, 100, 5.0
# How many ticks there are at least in the time after which a worker without a beat is overdue.
IN_TIMEOUT = 4


def pause_of(workers: int, timeout: int) -> float:
    """The seconds between two ticks of a service at rest."""
    return max(TICK_LEAST_SECONDS, min(workers / EACH_SECOND, TICK_MOST_SECONDS, timeout / IN_TIMEOUT))


class Ticks:
    """The ticks of a service: how many there were, and when the next one is due."""

    def __init__(self) -> None:
        self.count, self.told, self.due = 0, 0.0, 0.0

    def tell(self, pause: float) -> str:
        """The word of a tick that is told now."""
        self.count, self.told = self.count + 1, time.monotonic()
        self.due = self.told + pause
        return f"tick {int(self.told)}"

    def is_due(self) -> bool:
        return time.monotonic() >= self.due

    def seconds(self) -> float:
        """How long until the next one."""
        return max(0.0, self.due - time.monotonic())

    def put_off(self) -> None:
        """A tick that is due would do nothing: it is asked again later."""
        self.due = time.monotonic() + TICK_LEAST_SECONDS

    def hurry(self) -> None:
        """A worker may have ended: the next one is due as soon as one may be told."""
        self.due = min(self.due, self.told + TICK_LEAST_SECONDS)

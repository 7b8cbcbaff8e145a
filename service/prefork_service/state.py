"""The state of the whole: whether a service does what is wanted of it. Everything that tells of the service tells this."""
import dataclasses
from typing import Any

from .words import ATTENDED, SIGNALS

SERVES, IN_CHANGE, SHORT, STOPPED = "serves", "changes", "short", "stopped"
MEANINGS = {
    SERVES: "as many workers run as are wanted",
    IN_CHANGE: "a word that changes the service is being carried out, or its first workers start",
    SHORT: "fewer workers run than are wanted",
    STOPPED: "no worker is wanted, or the service has ended",
}
# Words that change who serves.
CHANGING = {word for word in (*SIGNALS, ATTENDED) if word != "USR1"}
# How long a service has to be short before it is told to people and to hooks: a worker that is replaced at once is no
# news. How many workers are named that do not start.
SETTLE_SECONDS, MOST_NAMED = 1.0, 3


def times(count: int) -> str:
    return "once" if count == 1 else f"{count} times"


@dataclasses.dataclass(frozen=True)
class Whole:
    """A state, with the numbers that it rests on: the word that changes the service, how many workers are wanted and run,
    why there are too few, and which of them fail to start."""

    state: str
    wanted: int
    running: int
    word: str = ""
    why: str = ""
    failing: tuple[int, ...] = ()

    @property
    def line(self) -> str:
        """The state in a line."""
        if self.state == IN_CHANGE:
            return f"{IN_CHANGE}: {self.word}"
        if self.state == STOPPED:
            return f"{STOPPED}: no worker is wanted"
        if self.state == SERVES:
            return f"{SERVES}: wanted {self.wanted}, runs {self.running}"
        return f"{SHORT}: wanted {self.wanted}, runs {self.running}" + (f": {self.why}" if self.why else "")

    def as_json(self) -> dict[str, Any]:
        return {"state": self.state, "means": MEANINGS[self.state], "wanted": self.wanted, "running": self.running, "line": self.line}


def whole_of(word: str | None, is_started: bool, wanted: int, running: int, why: str, failing: tuple[int, ...] = ()) -> Whole:
    """The state of a service that carries out this word, or none. `is_started` is false up to its first block."""
    if not is_started:
        return Whole(IN_CHANGE, wanted, running, "the service starts")
    if word in CHANGING:
        return Whole(IN_CHANGE, wanted, running, f"{word}")
    if not wanted:
        return Whole(STOPPED, wanted, running)
    return Whole(SHORT, wanted, running, "", why, failing) if running < wanted else Whole(SERVES, wanted, running)


class News:
    """Which states are news: one that lasts and is another than was told last, or a shortfall of another size."""

    def __init__(self) -> None:
        self.told: Whole | None = None
        self.since, self.seen = 0.0, ""
        # Whether a shortfall is told before long, if it lasts.
        self.is_near = False

    def take(self, whole: Whole, now: float) -> tuple[Whole, Whole | None] | None:
        """The state, if it is to be told now, and the one that was told before. A change is told by its word."""
        key = key_of(whole)
        if key != self.seen:
            self.seen, self.since = key, self.since if self.goes_on(whole) else now
        self.is_near = False
        if whole.state == IN_CHANGE or self.told and key == key_of(self.told):
            return None
        if whole.state == SHORT and now - self.since < SETTLE_SECONDS:
            self.is_near = True
            return None
        before, self.told = self.told, whole
        return whole, before

    def goes_on(self, whole: Whole) -> bool:
        """Whether a shortfall goes on of which nobody was told yet, or not who fails."""
        is_new = not self.told or self.told.state != SHORT or not self.told.failing and self.told.running == whole.running
        return whole.state == SHORT and self.seen.startswith(SHORT) and is_new


def key_of(whole: Whole) -> str:
    """What makes a state another one; of a shortfall its size too, and which workers fail to start."""
    return f"{whole.state} {whole.wanted} {whole.running} {whole.failing}" if whole.state == SHORT else whole.state

"""A barrier round each event and each duty of a loop: what one of them raises is told, and costs that one alone.

A handler that fails again and again at the same source has that source closed: its owner's `forsake(source)` if there is
such a method, and otherwise the barrier closes it. Only a loop that can't be told of events any more ends (`Broken`).
"""
import collections
import selectors
import time
import traceback
from collections.abc import Callable
from typing import Any

# A source that fails this often within this time, in seconds, is closed.
MOST_FAULTS, FAULT_SECONDS = 5, 10.0
# The same fault is told with its trace once in this time, and then how often it came again.
FAULT_TELL_SECONDS = 60.0
# The pause after a turn with a fault: what raises in each turn must not take the processor.
REST_SECONDS = 0.05
# How often in a row no event can be asked for, before the loop ends.
MOST_BLIND = 100
# How many kinds of faults are remembered.
MOST_KINDS = 256


class Broken(Exception):
    """The loop can't do its work any more."""


def name_of(call: Callable[..., Any]) -> str:
    return getattr(call, "__qualname__", None) or repr(call)


class Barrier:
    """Carries out what a loop has to do. `say` tells people; `count` is how many faults there were."""

    def __init__(self, say: Callable[[str], None]):
        self.say, self.count, self.blind, self.has_failed = say, 0, 0, False
        # When each source failed, and for each kind of fault when it was told and how often it has come since.
        self.faults: dict[Any, collections.deque[float]] = {}
        self.told: dict[str, tuple[float, int]] = {}

    def duty(self, call: Callable[..., Any], *given: Any) -> Any:
        """What a call gives; nothing if it raises."""
        try:
            return call(*given)
        except Exception as fault:
            self.note(name_of(call), fault)
            return None

    def select(self, events: selectors.BaseSelector, seconds: float | None) -> list[selectors.SelectorKey]:
        """The sources of which there is something to hear within some seconds."""
        self.rest()
        try:
            found = [key for key, _ in events.select(REST_SECONDS if seconds is None else seconds)]
            self.blind = 0
            return found
        except Exception as fault:
            self.note("select", fault)
            self.blind += 1
            if self.blind >= MOST_BLIND:
                raise Broken(f"no event can be heard of: {fault}") from fault
            return []

    def rest(self) -> None:
        if self.has_failed:
            time.sleep(REST_SECONDS)
        self.has_failed = False

    def event(self, events: selectors.BaseSelector, key: selectors.SelectorKey) -> None:
        """Handles an event by what was registered for it, unless that was taken back in this very turn."""
        try:
            if is_registered(events, key):
                key.data(key.fileobj)
        except Exception as fault:
            self.note(name_of(key.data), fault)
            if self.count_fault((name_of(key.data), key.fd)):
                self.forsake(events, key)

    def count_fault(self, source: Any) -> bool:
        """Whether a source has failed too often; that is forgotten then."""
        now = time.monotonic()
        faults = self.faults.setdefault(source, collections.deque(maxlen=MOST_FAULTS))
        faults.append(now)
        if len(faults) < MOST_FAULTS or now - faults[0] > FAULT_SECONDS:
            return False
        del self.faults[source]
        return True

    def forsake(self, events: selectors.BaseSelector, key: selectors.SelectorKey) -> None:
        """Closes a source."""
        forsake = getattr(getattr(key.data, "__self__", None), "forsake", None)
        self.say(f"{name_of(key.data)} has failed {MOST_FAULTS} times at one source, which is closed")
        if forsake:
            self.duty(forsake, key.fileobj)
        else:
            self.duty(close, events, key.fileobj)

    def once(self, text: str) -> None:
        """Says something once in a while, however often it comes."""
        now = time.monotonic()
        if now - self.told.get(text, (now - FAULT_TELL_SECONDS, 0))[0] >= FAULT_TELL_SECONDS:
            self.told[text] = now, 0
            self.say(text)

    def note(self, name: str, fault: Exception) -> None:
        """Tells of a fault: with its trace, or how often it has come again."""
        self.count, self.has_failed, now = self.count + 1, True, time.monotonic()
        kind = f"{name}: {type(fault).__name__}: {fault}"
        told, more = self.told.get(kind, (now - FAULT_TELL_SECONDS, 0))
        if now - told < FAULT_TELL_SECONDS:
            self.told[kind] = told, more + 1
            return
        if len(self.told) >= MOST_KINDS:
            self.told.clear()
        self.told[kind] = now, 0
        again = f" ({more} more since it was told last)" if more else ""
        trace = "".join(traceback.format_exception(fault)).rstrip()
        self.say(f"a fault in {name}, which costs this event alone{again}:\n{trace}")


def is_registered(events: selectors.BaseSelector, key: selectors.SelectorKey) -> bool:
    """Whether a source is heard still, by this handler. One that is closed has no number."""
    try:
        return events.get_key(key.fileobj) == key
    except (KeyError, ValueError):
        return False


def close(events: selectors.BaseSelector, source: Any) -> None:
    """Closes a source that nothing else knows."""
    events.unregister(source)
    if hasattr(source, "close"):
        source.close()

"""Requests that take too long in a worker of --wsgi (`request_timeout`): it accepts no more, answers the others, and ends without
them. A thread of Python that hangs cannot be ended by itself."""
import time
from typing import Any

# What such a reason has in it.
REASON = "has been at a request for more than "


def late_ones(begun: list[tuple[float, Any]], seconds: float) -> list[Any]:
    """The channels whose requests have been worked at for so long, by the moments at which that began. What counts is the time since
    something of the answer was sent: one whose client has still to take some of it is not worked at."""
    now = time.monotonic()
    return [channel for moment, channel in begun if not channel.total_outbufs_len and now - max(moment, channel.last_activity) > seconds]


def named(channel: Any) -> str:
    """The request of a channel, without what follows the path: that may be secret."""
    from .access_log import escaped
    requests = list(channel.requests)
    return f"{escaped(requests[0].command or '')} {escaped(requests[0].path or '')}" if requests else "-"


def told(channel: Any, seconds: float, others: int) -> str:
    """Why a worker ends."""
    rest = f", once {others} other{'s are' if others > 1 else ' is'} answered" if others else ""
    return f"{REASON}{seconds:g} seconds, and ends{rest}: {named(channel)}"

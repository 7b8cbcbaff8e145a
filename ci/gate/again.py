"""Work with real processes that fails beside other work is done again by itself.

Services under load run beside proofs, edits and one another, and a machine that is full starves a process for longer
than any limit of theirs. So what failed there is done once more with nothing of its script beside it, and that second
run counts. What the first one said is printed all the same. Three things are never the machine's, and are not done
again: a request that was lost, a script in which more than a few pieces fail, and what fails again.
"""
import concurrent.futures
import traceback
from collections.abc import Callable, Iterable
from typing import NamedTuple

from gate.tally import MOST_LINES, Tally, total

# How many pieces of a script may fail beside others, so that they are done again.
MOST_AGAIN = 4


class Work(NamedTuple):
    """A piece of a script, which counts its own checks. It can be done a second time."""

    name: str
    do: Callable[[], Tally]


def done(work: Work) -> Tally:
    """The checks of a piece of work. One that raises is a check that fails."""
    try:
        return work.do()
    except Exception:
        # (the others go on, and are counted)
        return Tally(0, 1, [f"{work.name}: {traceback.format_exc().rstrip()}"])


def all_done(works: Iterable[Work], at_a_time: int, say: Callable[[str], None]) -> Tally:
    """Does this number of pieces at a time, and again, one by one, those of which a second run counts."""
    pieces = [*works]
    with concurrent.futures.ThreadPoolExecutor(at_a_time) as pool:
        found = list(pool.map(done, pieces))
    for place in worth_another(found):
        for line in found[place].wrong[:MOST_LINES]:
            say(f"beside others: {line}")
        say(f"{pieces[place].name} is done again, by itself")
        found[place] = done(pieces[place])
    return total(found)


def worth_another(found: list[Tally]) -> list[int]:
    """The places of what has failed and can be the machine's doing."""
    failed = [place for place, tally in enumerate(found) if tally.failed]
    if len(failed) > MOST_AGAIN:
        return []
    return [place for place in failed if not found[place].is_lost]

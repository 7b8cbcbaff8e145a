"""Checks of what a script does again by itself, on pieces of work that are made up."""
import contextlib
import io
from collections.abc import Callable, Iterator

from gate.again import MOST_AGAIN, Work, all_done
from gate.tally import Tally


def passed() -> Tally:
    return Tally(3)


def failed() -> Tally:
    return Tally(2, 1, ["it was late"])


def lost() -> Tally:
    tally = Tally(2)
    tally.check_lost(["a request was lost"])
    return tally


def broken() -> Tally:
    raise ValueError("a broken piece")


def in_turn(*outcomes: Callable[[], Tally]) -> Work:
    """A piece with these outcomes, one after another."""
    left = list(outcomes)
    return Work("piece", lambda: left.pop(0)())


def counted(*works: Work) -> tuple[int, int, str]:
    """How much passed and failed, and what was said."""
    said: list[str] = []
    tally = all_done(works, 3, said.append)
    return tally.passed, tally.failed, " ".join([*said, *tally.wrong])


def the_second_run_counts() -> Iterator[str]:
    """What failed beside others and passes by itself has passed, and what it said first is told."""
    found = counted(in_turn(passed), in_turn(failed, passed))
    if found[:2] != (6, 0) or "it was late" not in found[2]:
        yield f"again: a late piece that passes by itself: {found}"


def what_fails_again_has_failed() -> Iterator[str]:
    found = counted(in_turn(failed, failed), in_turn(broken, broken))
    if found[:2] != (2, 2) or "a broken piece" not in found[2]:
        yield f"again: pieces that fail twice: {found}"


def a_lost_request_stays_lost() -> Iterator[str]:
    found = counted(in_turn(lost, passed))
    if found[:2] != (2, 1):
        yield f"again: a lost request: {found}"


def many_failures_are_not_the_machines() -> Iterator[str]:
    found = counted(*(in_turn(failed, passed) for _ in range(MOST_AGAIN + 1)))
    if found[1] != MOST_AGAIN + 1:
        yield f"again: {MOST_AGAIN + 1} pieces that fail: {found}"


def what_failed_is_named_at_the_end() -> Iterator[str]:
    """However much was said of it."""
    said = io.StringIO()
    with contextlib.redirect_stdout(said):
        Tally(2, 2, ["unit tests: a_test\n" + "a line\n" * 200, "a page: it is not there"]).end()
    last = said.getvalue().splitlines()[-3:]
    if last != ["failed: unit tests: a_test", "failed: a page: it is not there", "2 passed, 2 failed"]:
        yield f"again: the end of what was said: {last}"


CHECKS: tuple[Callable[[], Iterator[str]], ...] = (
    the_second_run_counts, what_fails_again_has_failed, a_lost_request_stays_lost, many_failures_are_not_the_machines,
    what_failed_is_named_at_the_end,
)

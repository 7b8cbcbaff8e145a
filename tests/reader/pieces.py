"""Pieces of plans and of runs by names of their own (call_laws/specs/Pieces.antt): those that lengths.py, path.py,
start.py and words.py name."""
from reader.calls import shared
from reader.crews import Posts, fds_of
from reader.numbers import Numbers
from reader.plans import on
from reader.run import Branch, Branches, Moment, Tree, goes_with, plain_reply, same_reply
from reader.table import Holds
from reader.vocabulary import Call, Lacks, Reply

# What follows a call


def spawn_edges(ok: Tree, bad: Tree) -> Branches:
    return on((Reply.Spawned,), ok, on((Reply.Again, Reply.NoMemory, Reply.NoImage), bad))


def branch(branches: Branches, r: Reply) -> Branch | None:
    """What follows a reply: the note that is set, and the rest."""
    return goes_with(branches, r)


# Holds


def share(posts: Posts, k: int, holds: Holds) -> Holds:
    """What a worker holds of what its master holds."""
    return shared(fds_of(posts, k), holds)


# Runs

# a moment at which nobody exits and nothing fails
quiet = Moment((), None)


def lacked_last(lacked: Lacks) -> Numbers:
    """What the last count of all lacked."""
    return lacked[0].numbers if lacked else ()


def went_wrong(call: Call, r: Reply) -> bool:
    """A call that is not answered plainly, or a census that lacks a number of its set."""
    return not same_reply(r, plain_reply(call))


def first_cause(before: int | None, wrong: bool, n: int) -> int | None:
    """The first call that went wrong, where one more has or has not."""
    return n if before is None and wrong else before

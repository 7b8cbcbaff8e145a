"""How far the present word is, as far as it can be seen: a master tells of its calls at the end of a word, and until then the
processes of workers show which of them run, and a file which of them are ready."""
from typing import Any, NamedTuple


class Running(NamedTuple):
    """The workers that run: those that the present word has started, the others, how many these were before it, and how many
    of the new ones are known to be ready."""

    new: int
    old: int
    before: int
    ready: int = 0


# What is waited for.
STARTING, ARE_READY, FINISH, IS_OVER, HAVE_ENDED = (
    "new workers start", "the new workers are to be ready", "old workers finish", "the end of the word", "new workers have ended"
)
ONE_MORE, ONE_IS_READY, ANSWER = "another worker starts", "the other worker is to be ready", "its question is to be answered"


def is_newer(generation: str, other: str) -> bool:
    """Whether a generation, such as 1.10, has come after another one, such as 1.9; any has come after none."""
    return [*map(int, generation.split("."))] > [int(part) for part in other.split(".") if part]


class Progress:
    """How far words are. `goal` is how many workers a word is to start; 0 where that is not known, or it starts none."""

    def __init__(self) -> None:
        # The present word and when it began, what it does now and since when, and how many new workers ran at most.
        self.word, self.began, self.step, self.since, self.most = "", 0.0, "", 0.0, 0

    def of(self, word: str, began: float, now: float, counts: Running, goal: int, question: int = 0) -> dict[str, Any]:
        """For how long a word has been carried out, which workers run, what is waited for, and for how long."""
        if (word, began) != (self.word, self.began):
            self.word, self.began, self.step, self.since, self.most = word, began, "", began, 0
        self.most = max(self.most, counts.new)
        step = ANSWER if question else step_of(word, counts, goal, self.most)
        if self.step and step != self.step:
            self.since = now
        self.step = step
        told = {"word": word, "seconds": seconds_between(began, now), "new": counts.new, "old": counts.old, "wanted": goal}
        told |= {"ready": counts.ready}
        told |= {"step": step, "step_seconds": seconds_between(self.since, now)}
        return {**told, "line": f"{word}, for {told['seconds']} s: {shown(counts, goal)}; {step}, for {told['step_seconds']} s"}


def step_of(word: str, counts: Running, goal: int, most: int) -> str:
    """What is waited for, as far as the workers that run show it. `most` is how many new ones ran at most."""
    if counts.new < most:
        return HAVE_ENDED
    if word == "USR1":
        return IS_OVER
    if word == "TTIN":
        return ONE_IS_READY if counts.old > counts.before else ONE_MORE
    if counts.new < goal:
        return STARTING
    are_ready = not goal or counts.old < counts.before or counts.ready >= goal
    if counts.old:
        return FINISH if are_ready else ARE_READY
    return IS_OVER if are_ready else ARE_READY


def shown(counts: Running, goal: int) -> str:
    """Which workers run."""
    if counts.new or goal:
        ready = f" ({counts.ready} ready)" if counts.ready else ""
        return f"{counts.new}{f' of {goal}' if goal else ''} new{ready} and {counts.old} old workers run"
    return f"{counts.old} worker{'' if counts.old == 1 else 's'} run{'s' if counts.old == 1 else ''}"


def seconds_between(began: float, now: float) -> int:
    return int(max(0.0, now - began))


def counts_of(generation: str, before: int, workers: list[dict[str, Any]], ready: int = 0) -> Running:
    """How many workers of newer generations than this one run, and of this and older ones; `before` is how many ran before
    the word, and `ready` how many of the newer ones are known to be ready."""
    running = [worker for worker in workers if worker["process"]]
    new = sum(is_newer(worker["generation"], generation) for worker in running)
    return Running(new, len(running) - new, before, ready)

"""The questions of an attended upgrade: how the master asks them, what answers them, and what its operator is told."""
import dataclasses
import re

from .words import is_tick

GO, BACK = "go", "back"
# What is told to the master for an answer. QUIT would go on too, and a moment later it would stop the service.
ANSWERS = {GO: "WINCH", BACK: "HUP"}
# An answer to one question alone, by the number that it has among all questions of the service, and why it is that one, in lines.
OF_ONE = re.compile(r"(go|back) (\d{1,18})(?: (.*))?", re.S)
# What prefork-ctl sends where it is given no word.
STATE = "question"
NOT_ASKED = "refused not-asked"
WHO_SERVES = {1: "old and new workers serve", 2: "the new workers alone serve"}
MORE = {
    1: """\
Look at the answers and the logs of the new workers: they have part of the requests.
prefork-ctl go: the old workers finish and leave. Then it asks again.
prefork-ctl back: the new workers finish and leave, and the old ones serve on.
""",
    2: """\
Look at the new workers under the whole load. The old master waits, without workers.
prefork-ctl go: the old master leaves, and the upgrade is done.
prefork-ctl back: the old master starts its workers again, from the files as they are now. Then the new ones leave.
""",
}
NO_TICK = "While it asks, a worker that ends is not replaced, and other words wait.\n"
# After how many seconds at a question its command runs, and how long it may take.
AFTER, WITHIN = 10.0, 60.0


@dataclasses.dataclass(frozen=True)
class Ask:
    """A command that answers the questions of a word, after some seconds and within some."""

    command: tuple[str, ...]
    after: float = AFTER
    within: float = WITHIN


@dataclasses.dataclass(frozen=True)
class Answer:
    """An answer: to the question of a number, or to the one that is asked, and why."""

    word: str
    number: int | None = None
    why: tuple[str, ...] = ()


def answer_in(text: str) -> Answer | None:
    """The answer that a text is."""
    if text in ANSWERS:
        return Answer(text)
    found = OF_ONE.fullmatch(text)
    return Answer(found[1], int(found[2]), tuple((found[3] or "").splitlines())) if found else None


def told_of(question: int) -> tuple[str, dict[str, str]]:
    """What to look at before an answer, and what follows each, in sentences."""
    look, *lines = MORE[question].splitlines()
    told = (line.partition(": ")[2] for line in lines)
    return look, {answer: f"{it[0].upper()}{it[1:]}" for answer, it in zip(ANSWERS, told)}


def line_of(question: int) -> str:
    """A question in one line."""
    return f"asks {question}: {WHO_SERVES[question]}\n"


def state(question: int, word: str | None, waiting: int) -> str:
    """What an operator is told of the service: which question it asks, the word that is being carried out, and how many
    wait."""
    if question:
        return line_of(question) + MORE[question] + NO_TICK + waits(waiting)
    is_busy = word is not None and not is_tick(word)
    return (f"asks nothing: {word} is being carried out\n" if is_busy else "asks nothing\n") + waits(waiting)


def waits(count: int) -> str:
    return f"{count} more word{'s wait' if count > 1 else ' waits'}\n" if count else ""

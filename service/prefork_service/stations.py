"""The stations of a word that changes the service: what its plan does one after another, and where it is, as far as the workers
that run show it. A master tells of its calls at the end of a word."""
from .forms import Status
from .progress import ANSWER, ARE_READY, IS_OVER, FINISH, HAVE_ENDED, ONE_IS_READY, ONE_MORE, STARTING

DONE, NOW, NEXT = "done", "now", "next"
# A station: its name, and the steps that show that a word is there.
Stations = tuple[tuple[str, frozenset[str]], ...]
GOES_BACK = "goes back, or starts again what is missing"
# New workers start, and some of them run.
SOME_RUN = f"{STARTING}, and some run"


def stations(*rows: tuple[str, str]) -> Stations:
    return tuple((name, frozenset(filter(None, steps.split("|")))) for name, steps in rows)


RELOAD = stations(
    ("open addresses", STARTING), ("start workers", SOME_RUN), ("hear them ready", ARE_READY), ("count them", ""),
    ("let the old ones finish", FINISH), ("close addresses", ""), ("count again", IS_OVER),
)
UPGRADE = stations(
    ("start a new master", STARTING), ("start its workers", SOME_RUN), ("hear them ready", ARE_READY), ("count them", ""),
    ("let the old workers finish", FINISH), ("the old master leaves", ""), ("count again", IS_OVER),
)
ASKING = stations(("it asks", ANSWER))
# Where the questions of an attended upgrade come.
FIRST_QUESTION, SECOND_QUESTION = 4, 5
PLANS: dict[str, Stations] = {
    "HUP": RELOAD,
    "USR2": UPGRADE,
    "USR2 attended": UPGRADE[:FIRST_QUESTION] + ASKING + UPGRADE[FIRST_QUESTION:SECOND_QUESTION] + ASKING + UPGRADE[SECOND_QUESTION:],
    "TTIN": stations(("start a worker", ONE_MORE), ("hear it ready", ONE_IS_READY), ("count", IS_OVER)),
    "TTOU": stations(("let a worker finish", FINISH), ("count", IS_OVER)),
    "WINCH": stations(("let the workers finish", FINISH), ("count", IS_OVER)),
}


def place(plan: Stations, progress: Status | None, question: int) -> int:
    """The number of the station at which a word is; the first one where nothing shows another."""
    step = progress["step"] if progress else ""
    step = SOME_RUN if progress and step == STARTING and progress["new"] else step
    found = [number for number, (_, steps) in enumerate(plan) if step in steps]
    return found[min(max(question, 1), len(found)) - 1] if found else 0


def shown_stations(word: str | None, progress: Status | None, question: int) -> list[tuple[str, str]]:
    """The stations of the present word, each with whether it is done, lit or still to come."""
    plan = PLANS.get(word or "", ())
    if not plan:
        return []
    if progress and progress["step"] == HAVE_ENDED:
        return [(GOES_BACK, NOW)]
    at = place(plan, progress, question)
    return [(name, DONE if number < at else NOW if number == at else NEXT) for number, (name, _) in enumerate(plan)]

"""What was done last, in sentences for people."""
import re
from collections.abc import Sequence

from .blocks import call_in, report_of
from .done import Done
from .words import is_routine, START

SPOKEN = {
    "HUP": "reload", "USR2": "upgrade", "USR2 attended": "attended upgrade", "TTIN": "start of one worker more",
    "TTOU": "end of one worker", "WINCH": "end of all workers", "USR1": "opening of new logs", "QUIT": "stop", "INT": "stop",
    "TERM": "stop", START: "start",
}


def clock(moment: str) -> str:
    """The hour and minute of a moment."""
    found = re.search(r"T(\d\d:\d\d)", moment)
    return found[1] if found else moment


def reason(done: Done) -> str:
    """Why a word did not do what was asked, in the words of who noted it."""
    for line in done.reasons:
        call = call_in(line)
        return call.why if call and call.why else line
    return f"call {done.cause}" if done.cause else ""


def sentence(done: Done) -> str:
    """What came of a word."""
    word = "tick" if is_routine(done.word) else done.word
    subject = f"The {SPOKEN.get(word, word)} at {clock(done.began)}"
    report = report_of(done.report)
    why = f": {reason(done)}" if reason(done) else ""
    missing = sum(report.lacks)
    lacks = f"{missing} worker{'' if missing == 1 else 's'} {'is' if missing == 1 else 'are'} missing"
    endings = {
        "done": f"{subject} is done.", "nothing": f"{subject} had nothing to do.",
        "rolled-back": f"{subject} was taken back{why}. The version before serves.",
        "degraded": f"{subject} ended short{why}. {lacks.capitalize()}.",
        "refused": f"{subject} was refused{why}. Nothing has changed.",
        "lost": f"{subject} was lost{why}.",
    }
    return endings.get(report.outcome, f"{subject}: {done.report}{why}.")


def on_its_way(word: str) -> str:
    """What a word that is being carried out does."""
    name = SPOKEN.get(word, word)
    return f"{'An' if name[0] in 'aeiou' else 'A'} {name} is on its way."


def newest(words: Sequence[Done]) -> str:
    """The last word in a sentence; nothing if there is none."""
    return sentence(words[-1]) if words else ""

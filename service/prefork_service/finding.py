"""What an operator means: the folder of the service, and the word."""
import difflib
import pathlib

from .words import ATTENDED, TICK, TOP, TRY, WORDS

# The folder of a service where none is named, and where the units have theirs.
HERE, UNITS, UNIT = "run", pathlib.Path("/run/prefork"), "prefork@"
# Names of words that are no names of signals.
NAMES = {"reload": "HUP", "upgrade": "USR2", "upgrade attended": ATTENDED, "stop": "QUIT", "log-rotate": "USR1"}
COMMANDS = ("status", "plan", "explore", "certify", "go", "back", TICK, TOP, TRY)


class Unnamed(LookupError):
    """It is not known which service is meant. The text says what can be named."""


def word_of(text: str) -> str:
    """The word that is meant: by its name, in capitals or not, or by what it does."""
    lower = " ".join(text.split()).lower()
    meant = {word.lower(): word for word in WORDS} | NAMES
    return meant.get(lower, text)


def nearest(text: str) -> str | None:
    """The word that is most like a text that is no word."""
    known = {name.lower(): name for name in (*WORDS, *NAMES, *COMMANDS)}
    found = difflib.get_close_matches(" ".join(text.split()).lower(), list(known), 1, 0.6)
    return known[found[0]] if found else None


def not_known(text: str) -> str:
    """What is said of a text that is no word, beside the words of the service: what else there is, and what is meant."""
    near = nearest(text)
    others = [*NAMES, *(name for name in COMMANDS if name != "status")]
    return f"prefork-ctl knows {', '.join(others)} too.{f' Do you mean {near}?' if near else ''}"


def services(units: pathlib.Path = UNITS) -> list[pathlib.Path]:
    """The folders of services that units run."""
    try:
        return sorted(found.parent for found in units.glob("*/ctl.sock"))
    except OSError:
        return []


def folder_of(given: str | None, units: pathlib.Path = UNITS) -> str:
    """The folder that is meant: the one that is named, by its path or by its unit, or the one that is here, or that of the
    only unit. Raises Unnamed with what can be named."""
    if given:
        name = given.removesuffix(".service")
        return str(units / name.removeprefix(UNIT)) if name.startswith(UNIT) and "/" not in name else given
    found = services(units)
    if (pathlib.Path(HERE) / "ctl.sock").exists() or not found:
        return HERE
    if len(found) > 1:
        raise Unnamed(f"there are several services: name one, as --folder {' or --folder '.join(map(str, found))}")
    return str(found[0])

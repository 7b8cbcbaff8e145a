"""The table `service` of a configuration: its keys, and what is wrong with the value of one.

Each key has a kind and a range, and is for some ways to run workers alone. A table `service.groups.NAME` has keys of its own
for the workers of one group of the configuration: the one that has the address `listener`.
"""
import dataclasses
import ipaddress
import re
from collections.abc import Callable, Iterable
from typing import Any

from .events import EVENTS
from .recipes import Fault, Path, Runs
from .sizes import ALLOWED as SIZES
from .sizes import bytes_of


EACH = frozenset(Runs)
OF_WSGI = frozenset({Runs.WSGI, Runs.PRELOADED})
OF_PROGRAM = frozenset({Runs.PROGRAM})
# Of a service as a whole: for no group alone.
NO_GROUP: frozenset[Runs] = frozenset()
# The variables that the service and systemd set, and the names of others.
RESERVED = ("PREFORK_", "LISTEN_", "NOTIFY_SOCKET", "WATCHDOG_")
VARIABLE = re.compile(r"[A-Za-z_][A-Za-z0-9_]*")
STOP_SIGNALS = ("HUP", "INT", "QUIT", "TERM", "USR1", "USR2", "WINCH")
LIMITS = ("as", "core", "cpu", "data", "fsize", "memlock", "nofile", "nproc", "rss", "stack")
# A day, which is as long as an adapter waits, and how much `answer_within` may be.
DAY_SECONDS, MOST_ANSWER, MOST_THREADS, MOST_LIMIT = 86400, (1 << 32) // 8 - 1, 1024, (1 << 63) - 1
# A proxy that is trusted at Unix sockets.
UNIX = "unix"
MODULE = re.compile(r"[^\s:]+(:[^\s:]+)?")


@dataclasses.dataclass(frozen=True)
class Key:
    """A key: whether a value fits it, what is allowed, and whose workers have it."""

    name: str
    fits: Callable[[Any], bool]
    allowed: str
    runs: frozenset[Runs] = EACH

    @property
    def option(self) -> str:
        """The option of an adapter."""
        return f"--{self.name.replace('_', '-')}"


def is_text(value: object) -> bool:
    return isinstance(value, str) and bool(value) and "\0" not in value


def is_texts(value: object) -> bool:
    return isinstance(value, list) and bool(value) and all(map(is_text, value))


def is_command(value: object) -> bool:
    """Whether a value is a program and its arguments, which may be empty texts."""
    return isinstance(value, list) and bool(value) and is_text(value[0]) and all(isinstance(word, str) and "\0" not in word for word in value)


def is_number(value: object, least: int, most: int) -> bool:
    return isinstance(value, int) and not isinstance(value, bool) and least <= value <= most


def whole(least: int, most: int) -> Callable[[Any], bool]:
    return lambda value: is_number(value, least, most)


def is_seconds(value: object) -> bool:
    return isinstance(value, (int, float)) and not isinstance(value, bool) and 0 < value <= DAY_SECONDS


def is_pause(value: object) -> bool:
    return is_seconds(value) or is_number(value, 0, 0)


def is_page(value: object) -> bool:
    return is_text(value) and str(value).startswith("/") and not re.search(r"\s", str(value))


def is_pages(value: object) -> bool:
    return isinstance(value, list) and all(map(is_page, value))


def is_module(value: object) -> bool:
    return isinstance(value, str) and bool(MODULE.fullmatch(value)) and "\0" not in value


def is_modules(value: object) -> bool:
    return isinstance(value, list) and all(map(is_module, value))


def is_signal(value: object) -> bool:
    return isinstance(value, str) and value.removeprefix("SIG") in STOP_SIGNALS


def is_yes_or_no(value: object) -> bool:
    return isinstance(value, bool)


def are_proxies(value: object) -> bool:
    try:
        return isinstance(value, list) and all(is_text(one) and (one == UNIX or bool(ipaddress.ip_network(one))) for one in value)
    except ValueError:
        return False


def is_table(value: object) -> bool:
    return isinstance(value, dict)


IN_SECONDS = f"seconds, more than 0 and at most {DAY_SECONDS}"
IN_PAUSE = f"seconds from 0 to {DAY_SECONDS}"
PATH = "a path that begins with / and has no space"
SIGNAL = f"one of {', '.join(STOP_SIGNALS)}"
CALLS = "a list of MODULE:NAME"
KEYS = {key.name: key for key in (
    Key("program", is_command, "a list of texts: the program and its arguments", frozenset({Runs.PROGRAM, Runs.PRELOADER})),
    Key("wsgi", is_module, "MODULE:APP", OF_WSGI),
    Key("preload", is_yes_or_no, "true or false"),
    Key("python", is_text, "the path of a Python", OF_WSGI),
    Key("environment", is_table, "a table of texts, or { file = \"PATH\" }"),
    Key("environment_files", is_texts, "a list of paths"),
    Key("folder", is_text, "the path of a folder"),
    Key("ready", lambda value: value in ("accept", "notify", "probe"), 'accept, notify or probe', OF_PROGRAM | OF_WSGI),
    Key("ready_within", is_seconds, IN_SECONDS),
    Key("finish", is_seconds, IN_SECONDS),
    Key("probe", is_page, PATH, OF_PROGRAM | OF_WSGI),
    Key("probe_within", is_seconds, IN_SECONDS, OF_PROGRAM),
    Key("probe_limit", is_seconds, IN_SECONDS, OF_PROGRAM),
    Key("stop", is_signal, SIGNAL, OF_PROGRAM),
    Key("usr1", is_signal, SIGNAL, OF_PROGRAM),
    Key("listen_fds", is_yes_or_no, "true or false", OF_PROGRAM),
    Key("blocking", is_yes_or_no, "true or false", OF_PROGRAM),
    Key("threads", whole(1, MOST_THREADS), f"a whole number from 1 to {MOST_THREADS}", OF_WSGI),
    Key("timeout", is_seconds, IN_SECONDS, OF_WSGI),
    Key("request_timeout", is_seconds, IN_SECONDS, OF_WSGI),
    Key("keep", whole(1, DAY_SECONDS), f"a whole number of seconds from 1 to {DAY_SECONDS}", OF_WSGI),
    Key("trusted_proxy", are_proxies, "a list of addresses, networks or unix", OF_WSGI),
    Key("access_log", is_text, "the path of a file", OF_WSGI),
    Key("access_form", lambda value: value in ("combined", "json"), "combined or json", OF_WSGI),
    Key("warm", is_pages, f"a list; each is {PATH}", OF_WSGI),
    Key("after_fork", is_modules, CALLS, OF_WSGI),
    Key("after_load", is_modules, CALLS, frozenset({Runs.PRELOADED})),
    Key("user", is_text, "the name of a user", frozenset({Runs.PROGRAM, Runs.WSGI})),
    Key("group", is_text, "the name of a group", frozenset({Runs.PROGRAM, Runs.WSGI})),
    Key("nice", whole(-20, 19), "a whole number from -20 to 19"),
    Key("hard_memory", lambda value: bytes_of(value) is not None, SIZES),
    Key("limits", is_table, f"a table of {', '.join(LIMITS)}"),
    Key("answer_within", whole(0, MOST_ANSWER), f"a whole number of seconds from 0 to {MOST_ANSWER}", NO_GROUP),
    Key("ask", is_command, "a list of texts: the command that answers questions, and its arguments", NO_GROUP),
    Key("ask_after", is_pause, IN_PAUSE, NO_GROUP),
    Key("ask_within", is_seconds, IN_SECONDS, NO_GROUP),
    Key("hooks", is_table, f"a table of {', '.join(EVENTS)}", NO_GROUP),
    Key("groups", is_table, "a table of groups, each a table", NO_GROUP),
)}
# The key of a group that says which one it is.
LISTENER = "listener"


def kind_of(value: object, is_secret: bool = False) -> str:
    """What a value is, for people, and itself if it is short and no secret."""
    if is_secret and isinstance(value, (bool, int, float)):
        return "no text"
    if isinstance(value, bool):
        return "true" if value else "false"
    if isinstance(value, (int, float)):
        return str(value)
    kinds = {str: "a text", list: "a list", dict: "a table"}
    return next((name for kind, name in kinds.items() if isinstance(value, kind)), "a date or a time")


def near_to(name: str, known: Iterable[str]) -> str:
    """The key that is meant perhaps, or all of them."""
    # (only where a key is mistyped)
    import difflib

    known = list(known)
    found = difflib.get_close_matches(name, known, 1, 0.6)
    return f"the nearest known key is {found[0]}" if found else f"known keys are {', '.join(known)}"


def dotted(path: Path) -> str:
    return ".".join(path)


def faults_of_keys(table: dict[str, Any], path: Path) -> list[Fault]:
    """What is wrong with the keys of the table, and with those of a group, each by itself."""
    known = [*KEYS] if path == ("service",) else [LISTENER, *(key.name for key in KEYS.values() if key.runs)]
    found = []
    for name, value in table.items():
        own = (*path, name)
        if name not in known:
            more = "is for the whole service, and not for a group" if name in KEYS else f"is no key: {near_to(name, known)}"
            found.append(Fault(own, f"{dotted(own)} {more}"))
        elif name == LISTENER:
            found += [] if is_text(value) else [Fault(own, f"{dotted(own)} is {kind_of(value)}: an address of a group is allowed")]
        elif not KEYS[name].fits(value):
            found.append(Fault(own, f"{dotted(own)} is {shown(name, value)}: {KEYS[name].allowed} is allowed"))
        elif name in FAULTS_WITHIN:
            found += FAULTS_WITHIN[name](value, own)
    return found


def shown(name: str, value: object) -> str:
    """A value that is refused; of one that people may keep secret its kind alone."""
    is_secret = name.startswith("environment")
    is_plain = isinstance(value, str) and not is_secret and len(value) <= 60
    return f'"{value}"' if is_plain and str(value).isprintable() else kind_of(value, is_secret)


def faults_of_environment(table: dict[str, Any], path: Path) -> list[Fault]:
    """What is wrong with variables. Their values are not shown."""
    found = []
    for name, value in table.items():
        own = (*path, name)
        if not VARIABLE.fullmatch(name):
            found.append(Fault(own, f"{dotted(own)} is no name of a variable: letters, digits and _ are allowed"))
        elif name.startswith(RESERVED):
            found.append(Fault(own, f"{dotted(own)} is a variable that the service sets: another name is allowed"))
        elif isinstance(value, dict):
            if set(value) != {"file"} or not is_text(value["file"]):
                found.append(Fault(own, f'{dotted(own)} is a table: {{ file = "PATH" }} is allowed, and nothing else in it'))
        elif not isinstance(value, str) or "\0" in value:
            found.append(Fault(own, f'{dotted(own)} is {kind_of(value, True)}: a text or {{ file = "PATH" }} is allowed'))
    return found


def is_limit(value: object) -> bool:
    if isinstance(value, list):
        return len(value) == 2 and all(not isinstance(one, list) and is_limit(one) for one in value) and lower(value[0], value[1])
    return value == "unlimited" or is_number(value, 0, MOST_LIMIT)


def lower(soft: Any, hard: Any) -> bool:
    """Whether a soft limit is within a hard one."""
    return hard == "unlimited" or bool(soft != "unlimited" and soft <= hard)


def faults_of_limits(table: dict[str, Any], path: Path) -> list[Fault]:
    found = []
    for name, value in table.items():
        own = (*path, name)
        if name not in LIMITS:
            found.append(Fault(own, f"{dotted(own)} is no limit: {near_to(name, LIMITS)}"))
        elif not is_limit(value):
            allowed = 'a whole number from 0 on, "unlimited", or a list of the soft and the hard limit'
            found.append(Fault(own, f"{dotted(own)} is {shown(name, value)}: {allowed} is allowed"))
    return found


def faults_of_hooks(table: dict[str, Any], path: Path) -> list[Fault]:
    found = []
    for name, value in table.items():
        own = (*path, name)
        if name not in EVENTS:
            found.append(Fault(own, f"{dotted(own)} is no event: {near_to(name, EVENTS)}"))
        elif not is_text(value):
            found.append(Fault(own, f"{dotted(own)} is {kind_of(value)}: the path of a program is allowed"))
    return found


def faults_of_groups(table: dict[str, Any], path: Path) -> list[Fault]:
    """What is wrong with the keys of groups."""
    found = []
    for name, value in table.items():
        own = (*path, name)
        if not isinstance(value, dict):
            found.append(Fault(own, f"{dotted(own)} is {kind_of(value)}: a table is allowed"))
        else:
            found += faults_of_keys(value, own)
            wanted = f'{dotted(own)} has no key {LISTENER}, which says of which group it is: {LISTENER} = "ADDRESS" is wanted'
            found += [] if LISTENER in value else [Fault(own, wanted)]
    return found


# What is looked at within the table that a key has.
FAULTS_WITHIN: dict[str, Callable[[dict[str, Any], Path], list[Fault]]] = {
    "environment": faults_of_environment, "limits": faults_of_limits, "hooks": faults_of_hooks, "groups": faults_of_groups,
}

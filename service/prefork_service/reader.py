"""prefork-read: reads the file of a configuration, and says what is in it.

prefork-serve starts it for each HUP and USR2, goes on meanwhile, and takes what it prints. So no file that never ends, no disk or
directory of users that does not answer, and no text that nobody has thought of keeps the service from its work.
"""
import datetime
import json
import pathlib
import re
import signal
import sys
import tomllib
from typing import Any

from . import VERSION
from .configuration import Configuration
from .errors import take_standard
from .folder import text_of
from .named import addresses_of, groups_of, timeout_of, workers_in
from .parents import end_with
from .recipes import SERVICE, Fault, Runs, Told, has_table, is_command, setup_of, told_in
from .socket_tables import faults_of_sockets, options_in
from .titles import set_title
from .toml_lines import line_of

# In the place of a text that is no TOML, and has a table `service`: what is wrong is said of the file itself.
NO_TOML, OF_SERVICE = b"the text is not TOML\n", re.compile(rb"^\s*\[{0,2}\s*[\"']?service\b", re.M)


def toml_of(value: object) -> str:
    """A value as TOML. Only such values come that a configuration may have."""
    if isinstance(value, dict):
        return "{ " + ", ".join(f"{json.dumps(key)} = {toml_of(item)}" for key, item in value.items()) + " }"
    if isinstance(value, list):
        return "[" + ", ".join(toml_of(item) for item in value) + "]"
    if isinstance(value, (float, datetime.date, datetime.time)):
        # The master is to refuse it, for its kind.
        return value.isoformat() if not isinstance(value, float) else repr(value)
    return json.dumps(value, ensure_ascii=False).replace("\x7f", "\\u007f")


def parted(text: bytes) -> bytes:
    """A configuration without its command, and without what is for the service alone: nobody else is to keep that. One that
    the master is to refuse stays as it is otherwise."""
    try:
        found = tomllib.loads(text.decode())
    except (ValueError, RecursionError):
        return NO_TOML if OF_SERVICE.search(text) else text
    has_command, has_table = is_command(found.get("command")), isinstance(found.get(SERVICE), dict)
    if not has_command and not has_table:
        return text
    left_out = [*(["command"] if has_command else []), *([SERVICE] if has_table else [])]
    return "".join(f"{json.dumps(key)} = {toml_of(value)}\n" for key, value in found.items() if key not in left_out).encode()


def is_toml(text: bytes) -> bool:
    try:
        tomllib.loads(text.decode())
    except (ValueError, RecursionError):
        return False
    return True


# The master handles no signals: a HUP to the number in its file ends it.
PID_OF_MASTER = "the configuration has a pid, which would name the master, and that handles no signals. Remove it: " \
    "serve.pid in the folder of the service is the file for kill"


# An editor that empties a file before it writes it, or a full disk.
EMPTY = "the configuration has no listeners and no groups. Is it empty, or written only in part?"
HAS_PID, NO_LISTENERS, HAS_KEYS = "refused pid", "refused no-listeners", "refused service-keys"
# An owner or a group of a socket that this system does not know, or does not allow.
HAS_SOCKETS = "refused socket-options"


class SiteFile:
    """The file of a configuration, as it was read."""

    def __init__(self, config: pathlib.Path, told: Told, most_seconds: float = 0.0):
        """`most_seconds` is how long the master that runs waits for its workers at most, if it has a limit."""
        self.config, self.told, self.most_seconds = config, told, most_seconds
        self.why = ""
        try:
            text = text_of(config)
        except OSError as fault:
            # The master finds it missing, and says so.
            text, self.why = b"", f"{config}: {fault.strerror}"
        self.take(text)

    def take(self, text: bytes, kept: dict[str, str] | None = None) -> None:
        """Takes a text as that of the file. `kept` are files of variables, by their paths, that are not read again."""
        self.text, self.for_master = text, parted(text)
        self.setup = setup_of(text, self.told, kept)

    def has_table(self) -> bool:
        """Whether it has a table `service` with keys."""
        return has_table(self.text)

    def has_adapter(self) -> bool:
        """Whether each worker has one connection to the keeper, as those of adapters and preloaders have."""
        return all(one.runs is not Runs.COMMAND for one in self.setup.recipes)

    def refusal(self) -> tuple[str, str] | None:
        """Why the service refuses it, though its master would take it: a report, and the reason."""
        try:
            found = tomllib.loads(self.text.decode())
        except (ValueError, RecursionError):
            return None
        if "pid" in found:
            return HAS_PID, PID_OF_MASTER
        faults = self.faults()
        if faults:
            more = f"; and {len(faults) - 1} more, which prefork-serve --check {self.config} says" if len(faults) > 1 else ""
            is_of_sockets = not self.setup.faults and bool(faults_of_sockets(self.for_master))
            return HAS_SOCKETS if is_of_sockets else HAS_KEYS, f"{faults[0]}{more}"
        is_empty = not {"listeners", "groups"} & set(found)
        return (NO_LISTENERS, EMPTY) if is_empty else None

    def faults(self) -> list[str]:
        """What is wrong with the tables `service` and `sockets`, each with its line."""
        found = [*self.setup.faults, *faults_of_sockets(self.for_master)]
        slow = [one for one in self.setup.recipes if self.most_seconds and one.seconds() > self.most_seconds]
        why = f"the master that runs waits for {self.most_seconds:g} seconds at most: start the service anew for more"
        found += [Fault((SERVICE,), f"ready_within or finish of workers makes {one.seconds():g} seconds, and {why}") for one in slow[:1]]
        text = self.text.decode(errors="replace")
        lines = [(line_of(text, fault.path), fault.text) for fault in found]
        return [f"{self.config}, line {number}: {said}" if number else f"{self.config}: {said}" for number, said in sorted(lines)]

    def notes(self) -> tuple[str, ...]:
        """What is said to people of it."""
        if self.why:
            return (self.why,)
        has_none = not self.setup.recipes and not self.setup.faults and is_toml(self.text)
        return (f"{self.config} has no command and no program, and the command line names none",) if has_none else ()

    def configuration(self) -> Configuration:
        """What the core is told of it."""
        setup, text = self.setup, self.for_master
        return Configuration(
            text=self.text, for_master=text, fault=self.why, refusal=None if self.why else self.refusal(), groups=setup.groups(),
            addresses=tuple(addresses_of(text)), sizes=tuple(workers for workers, _ in groups_of(text)),
            workers=workers_in(text), timeout=timeout_of(text), answer_within=setup.answer_within, hooks=setup.hooks, ask=setup.ask,
            files=setup.files, listeners={address: wanted.told() for address, wanted in options_in(text).items()}, notes=self.notes(),
        )


def main() -> int:
    """What is to be read is said in JSON on standard input. It ends with the process that has started it."""
    if sys.argv[1:] == ["--version"]:
        print(f"prefork-read {VERSION}")
        return 0
    take_standard()
    set_title("prefork-read")
    if not end_with(int(sys.argv[1])):
        return 1
    signal.pthread_sigmask(signal.SIG_SETMASK, ())
    asked: dict[str, Any] = json.load(sys.stdin.buffer)
    # (workers of --wsgi run under the Python of prefork-serve where nobody names another one)
    sys.executable = asked.get("python", sys.executable)
    found = SiteFile(pathlib.Path(asked["config"]), told_in(asked["told"]), asked["most_seconds"])
    sys.stdout.write(json.dumps(found.configuration().as_json()))
    sys.stdout.flush()
    return 0

"""What runs as workers, by a configuration and its command line: a recipe for each group, and what is wrong with them."""
import dataclasses
import grp
import os
import pathlib
import pwd
import re
import resource
import sys
from typing import Any

from . import places, programs
from .configuration import LAST
from .environments import variables_in
from .keys import KEYS, LISTENER, OF_WSGI, dotted, faults_of_keys
from .recipes import SERVICE, Fault, Path, Recipe, Runs, Setup, Told, is_command
from .sizes import bytes_of

# The tables of groups.
GROUPS = "groups"
Table = dict[str, Any]
# What an adapter fills in, in an argument or in a variable.
FILLED = re.compile(r"\{(fds?|fd\d+|fpm|room|probe|address\d*)\}")
# What a program can't reach as another user: the folder of the service is its user's alone.
IN_FOLDER = re.compile(r"\{(room|probe)\}")
# Options that say something by being there.
NO_LISTEN_FDS = "--no-listen-fds"
NOT_SET = {"no_listen_fds": "listen_fds"}
UNLIMITED = -1
WSGI_THREADS = 4


@dataclasses.dataclass(frozen=True)
class Settings:
    """The keys of a group, with those of the whole service that it has not."""

    program: tuple[str, ...] = ()
    wsgi: str = ""
    preload: bool = False
    python: str = ""
    environment: dict[str, Any] = dataclasses.field(default_factory=dict, repr=False)
    environment_files: tuple[str, ...] = ()
    folder: str = ""
    ready: str = ""
    ready_within: float | None = None
    finish: float | None = None
    probe: str = ""
    probe_within: float | None = None
    probe_limit: float | None = None
    stop: str = ""
    usr1: str = ""
    listen_fds: bool = True
    blocking: bool = False
    threads: int | None = None
    timeout: float | None = None
    request_timeout: float | None = None
    keep: int | None = None
    trusted_proxy: tuple[str, ...] = ()
    access_log: str = ""
    access_form: str = ""
    warm: tuple[str, ...] = ()
    after_fork: tuple[str, ...] = ()
    after_load: tuple[str, ...] = ()
    user: str = ""
    group: str = ""
    nice: int | None = None
    hard_memory: int | str = 0
    limits: dict[str, Any] = dataclasses.field(default_factory=dict)

    def options(self, runs: Runs) -> list[str]:
        """The options of the adapter."""
        found: list[str] = []
        for key in KEYS.values():
            value = getattr(self, key.name, None)
            # (an application of wsgi is asked once, before it serves: it has no other way to be ready)
            is_its = key.name in OPTIONS and runs in key.runs and not (runs in OF_WSGI and key.name == "ready")
            if is_its and value not in (None, "", (), False):
                values = value if isinstance(value, tuple) else (value,)
                found += [word for one in values for word in ([key.option] if one is True else [key.option, number(one)])]
        return found + ([] if self.listen_fds or runs is not Runs.PROGRAM else [NO_LISTEN_FDS])


# The keys that are options of adapters.
OPTIONS = (
    "ready", "ready_within", "finish", "probe", "probe_within", "probe_limit", "stop", "usr1", "blocking", "threads", "timeout",
    "request_timeout", "keep", "trusted_proxy", "access_log", "access_form", "warm", "after_fork", "after_load",
)


# The keys that groups have too.
GROUP_KEYS = {key.name for key in KEYS.values() if key.runs}
# The keys that are paths from the folder in which prefork-serve was started.
PATHS = {"folder", "access_log"}


def number(value: Any) -> str:
    """A value as an option has it."""
    return f"{value:g}" if isinstance(value, float) else str(value)


def groups_in(found: Table) -> list[tuple[int, list[Any]]]:
    """The workers and the addresses of each group of a configuration; one if it is to be refused."""
    groups = found.get(GROUPS, [found])
    if not isinstance(groups, list) or not all(isinstance(one, dict) for one in groups) or not groups:
        return [(1, [])]
    counts = [(one.get("workers", 1), one.get("listeners", [])) for one in groups]
    return [(count if isinstance(count, int) else 1, listed if isinstance(listed, list) else []) for count, listed in counts]


class Reading:
    """A configuration that is read, and what was found wrong so far."""

    def __init__(self, found: Table, told: Told, kept: dict[str, str] | None = None):
        self.found, self.told, self.setup = found, told, Setup()
        # What the files of variables had when the configuration was accepted, if that counts.
        self.kept = kept
        self.table: Table = found[SERVICE] if isinstance(found.get(SERVICE), dict) else {}
        self.command = tuple(found["command"]) if is_command(found.get("command")) else ()

    def refuse(self, path: Path, text: str) -> None:
        fault = Fault(path, text)
        if fault not in self.setup.faults:
            self.setup.faults.append(fault)

    def read(self) -> Setup:
        """What runs. With faults nothing does."""
        setup = self.setup
        setup.faults = faults_of_keys(self.table, (SERVICE,))
        if not setup.faults:
            tables = self.tables()
            self.look_at_unused(tables)
            recipes = [self.recipe(at, *one) for at, one in enumerate(tables)]
            setup.recipes = tuple(one for one in recipes if one) if all(recipes) else ()
            setup.answer_within = self.table.get("answer_within")
            setup.hooks, setup.ask = self.hooks(), self.ask()
        if setup.faults:
            setup.recipes = ()
            return setup
        setup.overridden = self.overridden()
        if len({dataclasses.replace(one, last=LAST) for one in setup.recipes}) == 1:
            setup.recipes = (dataclasses.replace(setup.recipes[0], last=LAST),)
        return setup

    def overridden(self) -> list[str]:
        """The keys of the file that the command line overrides."""
        told, tables = self.told, [self.table, *self.table.get(GROUPS, {}).values()]
        words = [word[2:].replace("-", "_") for word in (*told.of_program, *told.of_wsgi) if word.startswith("--")]
        named = {NOT_SET.get(word, word) for word in words} | ({"program", "wsgi"} if told.program or told.wsgi else set())
        named |= {name for name, is_told in (("preload", told.is_preloaded), ("python", told.python), ("folder", told.folder), ("hard_memory", told.hard_memory)) if is_told}
        return [name for name in KEYS if name in named and any(name in table for table in tables)]

    def hooks(self) -> dict[str, str]:
        """The programs that are told of events, as they are found from where prefork-serve was started."""
        given = self.table.get("hooks", {})
        found = {event: os.path.join(self.told.place, program) if "/" in program else program for event, program in given.items()}
        for event, program in found.items():
            if fault := programs.fault_of(program):
                self.refuse((SERVICE, "hooks", event), f"service.hooks.{event} can't be started: {fault}")
        return found

    def ask(self) -> dict[str, Any] | None:
        """What answers questions, and when: for prefork-ctl, which runs it from anywhere."""
        given = {name: self.table[f"ask_{name}"] for name in ("after", "within") if f"ask_{name}" in self.table}
        command = [*self.table.get("ask", ())]
        if not command:
            for name in given:
                self.refuse((SERVICE, f"ask_{name}"), f"service.ask_{name} is of a command that answers questions, and there is none: ask = [\"COMMAND\"] is wanted with it")
            return None
        if "/" in command[0]:
            command[0] = os.path.join(self.told.place, command[0])
        if fault := programs.fault_of(command[0]):
            self.refuse((SERVICE, "ask"), f"service.ask can't be started: {fault}")
        return {"command": command, **given}

    def tables(self) -> list[tuple[Path, Table, int]]:
        """Of each group the path of its own keys, the keys, and the number of its last worker."""
        groups, named = groups_in(self.found), self.table.get(GROUPS, {})
        of: dict[int, str] = {}
        for name, own in named.items():
            path = (SERVICE, GROUPS, name)
            at = next((at for at, (_, listed) in enumerate(groups) if own[LISTENER] in listed), None)
            if at is None:
                every = ", ".join(str(address) for _, listed in groups for address in listed)
                self.refuse((*path, LISTENER), f'{dotted(path)}.{LISTENER} is "{own[LISTENER]}", which no group has. Addresses are {every}')
            elif at in of:
                self.refuse((*path, LISTENER), f"{dotted(path)} and {of[at]} are the same group: give its keys in one of them")
            else:
                of[at] = name
        sums, most = [], 0
        for count, _ in groups:
            most += count
            sums.append(most - 1)
        sums[-1] = LAST
        return [
            ((SERVICE, GROUPS, of[at]), named[of[at]], last) if at in of else ((SERVICE,), {}, last) for at, last in enumerate(sums)
        ]

    def keys_of(self, own: Table) -> Table:
        """The keys of a group, and those of the whole service that it has not."""
        top = {key: value for key, value in self.table.items() if key in GROUP_KEYS}
        told = self.told
        if told.program or told.wsgi:
            top = {key: value for key, value in top.items() if key not in ("program", "wsgi")}
            top["program" if told.program else "wsgi"] = [*told.program] or told.wsgi
        if told.is_preloaded:
            top["preload"] = True
        if told.python:
            top["python"] = told.python
        if told.folder:
            top["folder"] = told.folder
        if "program" in own or "wsgi" in own:
            top = {key: value for key, value in top.items() if key not in ("program", "wsgi", "preload")}
        merged = {name: {**top.get(name, {}), **own.get(name, {})} for name in ("environment", "limits")}
        return {**top, **{key: value for key, value in own.items() if key != LISTENER}, **merged}

    def runs_of(self, keys: Table, path: Path) -> Runs | None:
        """How workers with these keys are run."""
        if "program" in keys and "wsgi" in keys:
            self.refuse((*path, "wsgi"), f"{dotted(path)} has program and wsgi: one of them is allowed")
        elif "wsgi" in keys:
            return Runs.PRELOADED if keys.get("preload") else Runs.WSGI
        elif "program" in keys:
            return Runs.PRELOADER if keys.get("preload") else Runs.PROGRAM
        elif self.command:
            return Runs.COMMAND
        return None

    def look_at_unused(self, tables: list[tuple[Path, Table, int]]) -> None:
        """Refuses keys that no worker has."""
        every = [(path, own, self.runs_of(self.keys_of(own), path)) for path, own, _ in tables]
        used = {runs for _, _, runs in every if runs}
        for path, own, runs in every:
            for name in own:
                if runs and name != LISTENER and runs not in KEYS[name].runs:
                    self.refuse((*path, name), f"{dotted((*path, name))} {unused(name, {runs})}")
        is_replaced = bool(self.told.program or self.told.wsgi)
        for name in self.table:
            runs_with = KEYS[name].runs
            if runs_with and used and not used & runs_with and not (is_replaced and name in self.table):
                self.refuse((SERVICE, name), f"{SERVICE}.{name} {unused(name, used)}")
        if self.command and {"program", "wsgi"} & set(self.table):
            name = "program" if "program" in self.table else "wsgi"
            self.refuse((SERVICE, name), f"{SERVICE}.{name} is beside command: one of them is allowed")

    def recipe(self, at: int, path: Path, own: Table, last: int) -> Recipe | None:
        """What starts the workers of a group; nothing if it is not known what runs, or something is wrong."""
        keys = self.keys_of(own)
        runs = self.runs_of(keys, path)
        if not runs:
            return None
        names = {field.name for field in dataclasses.fields(Settings)}
        kept = {key: tuple(value) if isinstance(value, list) else value for key, value in keys.items() if key in names}
        for name in PATHS & set(kept):
            kept[name] = os.path.join(self.told.place, kept[name])
        settings = Settings(**{key: value for key, value in kept.items() if runs in KEYS[key].runs})
        if not self.fits(settings, runs, path):
            return None
        variables, secrets = self.environment_of(settings, path)
        filled = {name: value for name, value in variables.items() if runs is Runs.PROGRAM and FILLED.search(value)}
        plain = {name: value for name, value in variables.items() if name not in filled}
        found = Recipe(
            self.words(settings, runs, filled), runs, last, path[-1] if own else "",
            settings.folder,
            tuple(plain.items()), tuple(secrets.items()), settings.nice, limits_of(settings.limits),
            self.told.ready_within or settings.ready_within, self.told.finish or settings.finish, self.looked_for(settings, runs, variables),
            (settings.threads or WSGI_THREADS) + bool(settings.access_log) if runs in OF_WSGI else 0,
            self.told.hard_memory or bytes_of(settings.hard_memory) or 0,
        )
        return found

    def looked_for(self, settings: Settings, runs: Runs, variables: dict[str, str]) -> str:
        """The program that must be there; nothing if it is looked for elsewhere than the service looks."""
        if runs is Runs.COMMAND:
            return str(self.command[0])
        return "" if runs in OF_WSGI or "PATH" in variables else settings.program[0]

    def words(self, settings: Settings, runs: Runs, filled: dict[str, str]) -> tuple[str, ...]:
        """The command of a worker, or of the preloader that forks it."""
        if runs is Runs.COMMAND:
            return self.command
        if runs is Runs.PRELOADER:
            return settings.program
        if runs is Runs.PROGRAM:
            variables = [word for name, value in filled.items() for word in ("--env", f"{name}={value}")]
            options = [*settings.options(runs), *variables, *self.told.of_program]
            return (str(places.ACTIVATE), *options, "--", *as_user(settings), *settings.program)
        python = settings.python or sys.executable
        python = os.path.join(self.told.place, python) if "/" in python else python
        more = ["--preloader"] if runs is Runs.PRELOADED else []
        more += [word for name in ("user", "group") if (value := getattr(settings, name)) for word in (f"--{name}", value)]
        return (python, str(places.WSGI), *settings.options(runs), *self.told.of_wsgi, *more, settings.wsgi)

    def environment_of(self, settings: Settings, path: Path) -> tuple[dict[str, str], dict[str, str]]:
        """The variables, and those whose values are in files."""
        found: dict[str, str] = {}
        for name in settings.environment_files:
            file = os.path.join(self.told.place, name)
            try:
                text = self.kept[file] if self.kept and file in self.kept else pathlib.Path(file).read_text()
                self.setup.files[file] = text
                found |= variables_in(text)
            except (OSError, UnicodeDecodeError) as fault:
                why = fault.strerror if isinstance(fault, OSError) else "it is no text in UTF-8"
                self.refuse((*path, "environment_files"), f"environment_files: {file}: {why}")
            except ValueError as fault:
                self.refuse((*path, "environment_files"), f"environment_files: {file}, {fault}")
        own = settings.environment
        secrets = {name: os.path.join(self.told.place, value["file"]) for name, value in own.items() if isinstance(value, dict)}
        found |= {name: value for name, value in own.items() if isinstance(value, str)}
        if settings.user:
            user = pwd.getpwnam(settings.user)
            found = {"HOME": user.pw_dir, "USER": user.pw_name, "LOGNAME": user.pw_name, **found}
        return {name: value for name, value in found.items() if name not in secrets}, secrets

    def fits(self, settings: Settings, runs: Runs, path: Path) -> bool:
        """Whether values fit one another, and the rights of the service allow them."""
        before = len(self.setup.faults)
        if runs in OF_WSGI and settings.ready not in ("", "probe"):
            self.refuse((*path, "ready"), f'{dotted(path)}.ready is "{settings.ready}": of wsgi "probe" alone is allowed')
        if settings.ready == "probe" and not settings.probe:
            self.refuse((*path, "ready"), f'{dotted(path)}.ready is "probe": a key probe is wanted with it, probe = "/PATH"')
        if runs in OF_WSGI and settings.probe and not settings.ready:
            self.refuse((*path, "probe"), f'{dotted(path)}.probe of wsgi is asked once, before it serves: ready = "probe" is wanted with it')
        for name, text in (("user", fault_of_user(settings)), ("group", fault_of_group(settings))):
            if text:
                self.refuse((*path, name), f"{dotted(path)}.{name} {text}")
        if settings.user and (settings.ready == "notify" or any(map(IN_FOLDER.search, settings.program))):
            self.refuse((*path, "user"), f"{dotted(path)}.user: another user reaches no file in the folder of the service, which "
                        "ready = \"notify\", {room} and {probe} are: other ways are allowed")
        if settings.nice is not None and os.geteuid() and settings.nice < os.getpriority(os.PRIO_PROCESS, 0):
            self.refuse((*path, "nice"), f"{dotted(path)}.nice is {settings.nice}: as this user a number from {os.getpriority(os.PRIO_PROCESS, 0)} on is allowed")
        for name, value in settings.limits.items():
            if text := fault_of_limit(name, value):
                self.refuse((*path, "limits", name), f"{dotted(path)}.limits.{name} {text}")
        return len(self.setup.faults) == before


def unused(name: str, used: set[Runs]) -> str:
    """Why nobody has a key."""
    wanted = " or ".join(one.value for one in Runs if one in KEYS[name].runs)
    return f"is a key of {wanted}, and the workers run {' and '.join(sorted(one.value for one in used))}: remove it"


def as_user(settings: Settings) -> list[str]:
    """What starts a program as another user."""
    user, group = settings.user, settings.group
    if not user and not group:
        return []
    if not user:
        return ["setpriv", f"--regid={grp.getgrnam(group).gr_gid}", "--clear-groups", "--"]
    found = pwd.getpwnam(user)
    number = grp.getgrnam(group).gr_gid if group else found.pw_gid
    if found.pw_uid == os.geteuid() and not group:
        return []
    return ["setpriv", f"--reuid={found.pw_uid}", f"--regid={number}", "--init-groups", "--inh-caps=-all", "--"]


def fault_of_user(settings: Settings) -> str:
    """Why workers can't have a user."""
    if not settings.user:
        return ""
    try:
        found = pwd.getpwnam(settings.user)
    except KeyError:
        return f'is "{settings.user}", who is no user of this system'
    is_own = found.pw_uid == os.geteuid()
    return "" if is_own or not os.geteuid() else f'is "{settings.user}": only root can start workers as another user'


def fault_of_group(settings: Settings) -> str:
    if not settings.group:
        return ""
    try:
        grp.getgrnam(settings.group)
    except KeyError:
        return f'is "{settings.group}", which is no group of this system'
    return f'is "{settings.group}": only root can start workers with another group' if os.geteuid() else ""


def pair_of(value: Any) -> tuple[int, int]:
    """A limit, soft and hard."""
    soft, hard = value if isinstance(value, list) else (value, value)
    return tuple(UNLIMITED if one == "unlimited" else int(one) for one in (soft, hard))  # type: ignore[return-value]


def limits_of(limits: Table) -> tuple[tuple[int, int, int], ...]:
    """Limits by their numbers."""
    return tuple((getattr(resource, f"RLIMIT_{name.upper()}"), *pair_of(value)) for name, value in limits.items())


def fault_of_limit(name: str, value: Any) -> str:
    """Why the service has no right to set a limit."""
    _, most = resource.getrlimit(getattr(resource, f"RLIMIT_{name.upper()}"))
    _, hard = pair_of(value)
    if not os.geteuid() or most == resource.RLIM_INFINITY or hard != UNLIMITED and hard <= most:
        return ""
    return f"is more than this user may have: at most {most} is allowed"

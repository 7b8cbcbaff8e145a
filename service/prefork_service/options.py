"""The command line of prefork-serve, and the command of a worker that it asks for."""
import argparse
import difflib
import errno
import os
import pathlib
import subprocess
import sys
import tomllib
from collections.abc import Iterable
from typing import Any

from . import VERSION, places
from .events import EVENTS
from .folder import text_of
from .keeper import add_socket_options
from .keys import OF_WSGI
from .limits import seconds_of, seconds_said
from .programs import fault_of
from .quickly import fault_of_file
from .recipes import Recipe, Runs, Told
from .settings import WSGI_THREADS
from .sites import fault_of_site, is_site
from .sizes import ALLOWED as SIZES
from .sizes import bytes_of

USAGE = """prefork-serve [OPTIONS] CONFIG -- PROGRAM ARGUMENT..
       prefork-serve [OPTIONS] --wsgi MODULE:APP CONFIG
       prefork-serve [OPTIONS] --preload CONFIG -- PRELOADER ARGUMENT..
       prefork-serve [OPTIONS] CONFIG
       prefork-serve [OPTIONS] --listen ADDRESS --workers N -- PROGRAM ARGUMENT..
       prefork-serve --init [OPTIONS] [CONFIG] -- PROGRAM ARGUMENT.."""
# What other servers call a number that is in the configuration here.
WORKER_OPTIONS = ("-w", "--worker", "--processes")
Options = dict[str, tuple[str | None, str]]
# Options that are handed on to the worker: what they take, and what they mean.
SHARED: Options = {
    "--ready-within": ("SECONDS", "how long it may take to be ready (30; by a command of CONFIG, eight times --answer-within)"),
    "--finish": ("SECONDS", "how long it may take to finish (the same)"),
}
# Of a PROGRAM, and of MODULE:APP the last one.
READY: Options = {"--ready": ("HOW", "when it is ready: accept (default), notify, or probe PATH; a MODULE:APP: probe PATH")}
# Where workers start. The path is read anew at each start: a symbolic link may lead elsewhere by then.
CHDIR: Options = {"--chdir": ("FOLDER", "where it starts, by this path as it leads at each start (the current folder)")}
PROGRAM: Options = {
    "--probe": ("PATH", "ask it for PATH before each beat"),
    "--probe-within": ("SECONDS", "how long such an answer may take (5)"),
    "--probe-limit": ("SECONDS", "end a worker that has not answered for this long (30)"),
    "--stop": ("SIGNAL", "the signal that tells it to finish (TERM)"),
    "--usr1": ("SIGNAL", "the signal that tells it to reopen its logs (none)"),
    "--env": ("NAME=VALUE", "a variable of its environment"),
    "--no-listen-fds": (None, "do not set LISTEN_FDS"),
    "--blocking": (None, "make the sockets block, for programs that wait in accept"),
}
WSGI_OPTIONS: Options = {
    "--threads": ("N", "how many requests a worker answers at a time (4)"),
    "--timeout": ("SECONDS", "end a worker whose threads have all been at one request for this long (30)"),
    "--request-timeout": ("SECONDS", "end a worker after its other requests if one has taken this long (none)"),
    "--keep": ("SECONDS", "how long a kept connection may be idle (75)"),
    "--trusted-proxy": ("ADDRESS", "believe what this proxy says of its clients: an address, a network, or unix"),
    "--access-log": ("FILE", "write a line for each answer to this file, which USR1 opens anew (none)"),
    "--access-form": ("FORM", "the form of these lines: combined, or json (combined)"),
    "--warm": ("PATH", "ask it for PATH before it serves, or before the first fork"),
    "--after-fork": ("MODULE:NAME", "call this in each worker, with its name"),
}
# Of a preloader, beside those of a worker.
PRELOADER: Options = {"--after-load": ("MODULE:NAME", "call this once it has loaded, before the first fork")}


def parser() -> argparse.ArgumentParser:
    made = argparse.ArgumentParser(
        prog="prefork-serve", usage=USAGE, allow_abbrev=False,
        description="Runs a service: a keeper of its sockets, a master and its workers.",
    )
    made.add_argument("--version", action="version", version=f"prefork-serve {VERSION}")
    made.add_argument("--folder", default="run", help="where its sockets, its pid file and the blocks are (run)")
    made.add_argument("--prefork", default="prefork", help="the program of the master (prefork on the path)")
    answer = "kill a worker that owes its master an answer for SECONDS (60); 0 is without a limit"
    made.add_argument("--answer-within", type=seconds_of, metavar="SECONDS", help=answer)
    defer = "accept a TCP connection once its first bytes are there"
    made.add_argument("--defer-accept", action="store_true", help=defer)
    add_socket_options(made)
    made.add_argument("--records", metavar="FOLDER", help="where the journal and the blocks are (the folder of the service)")
    size = "how much the blocks may take together; the oldest go first (32)"
    made.add_argument("--records-size", type=at_least_one, default=32, metavar="MEGABYTES", help=size)
    measured = "write what Prometheus reads to this file, or answer it at HOST:PORT under /metrics"
    made.add_argument("--metrics", metavar="FILE-OR-ADDRESS", help=measured)
    made.add_argument("--page", metavar="ADDRESS", help="show the service on a page at HOST:PORT, or at a Unix socket")
    public = "let --page and --metrics listen where others than this machine reach them; there is no password"
    made.add_argument("--public", action="store_true", help=public)
    host = "a name by which visitors of --page and --metrics may ask for them, as a proxy passes it on; it may be given again"
    made.add_argument("--host", action="append", default=[], metavar="NAME", help=host)
    for event, moment in EVENTS.items():
        made.add_argument(f"--{event}", metavar="PROGRAM", help=f"start this program {moment}, with JSON on its input")
    only = "say whether CONFIG, PROGRAM and the limits of the system fit, and start nothing"
    made.add_argument("--check", action="store_true", help=only)
    made.add_argument("--json", action="store_true", help="of --check: print what was found as JSON")
    begins = "write CONFIG (site.toml) for this command line, with comments, and start nothing"
    made.add_argument("--init", action="store_true", help=begins)
    changes = "HUP once this file, or one in this folder, has changed; it may be given again"
    made.add_argument("--reload-on-change", action="append", type=existing, default=[], metavar="PATH", help=changes)
    again = "go on trying if no worker has started, in place of ending with status 1"
    made.add_argument("--keep-trying", action="store_true", help=again)
    plain = "pass on what workers say as it is, without the time and the name of the worker before each line"
    made.add_argument("--plain-log", action="store_true", help=plain)
    listen = "an address to serve, in place of CONFIG (127.0.0.1:8080); it may be given again"
    made.add_argument("--listen", action="append", default=[], metavar="ADDRESS", help=listen)
    made.add_argument("--workers", type=number_of_workers, metavar="N", help="how many workers, in place of CONFIG (2)")
    made.add_argument("--wsgi", metavar="MODULE:APP", help="a WSGI application; it is served by waitress")
    preload = "load the application once in each generation, and fork workers; PROGRAM is a preloader then"
    made.add_argument("--preload", action="store_true", help=preload)
    python = "the Python that runs it (that of prefork-serve)"
    made.add_argument("--python", default="", metavar="PROGRAM", help=python)
    groups: dict[str, Options] = {"": SHARED | CHDIR | READY, " PROGRAM": PROGRAM, " MODULE:APP": WSGI_OPTIONS, " MODULE:APP with --preload": PRELOADER}
    memory = "kill a worker once it has taken this much memory (PSS), such as 512M or 1.5G (none)"
    made.add_argument("--hard-memory", type=memory_of, default=0, metavar="SIZE", help=memory)
    for title, options in groups.items():
        group = made.add_argument_group(f"options of a worker{title}")
        for option, (name, text) in options.items():
            kind: dict[str, Any] = {"action": "append", "metavar": name}
            if name is None:
                kind = {"action": "append_const", "const": None}
            group.add_argument(option, **kind, default=[], help=text)
    made.add_argument("config", nargs="?", metavar="CONFIG", help="the configuration, as prefork(1) has it")
    return made


def at_least_one(text: str) -> float:
    """A number of megabytes."""
    if float(text) < 1:
        raise argparse.ArgumentTypeError("it must be at least 1")
    return float(text)


def existing(text: str) -> str:
    """A path that there is."""
    if not os.path.exists(text):
        raise argparse.ArgumentTypeError(f"{text}: {os.strerror(errno.ENOENT)}")
    return text


def memory_of(text: str) -> int:
    """A size of memory."""
    if (found := bytes_of(text)) is None:
        raise argparse.ArgumentTypeError(f"it takes {SIZES}, not: {text}")
    return found


def number_of_workers(text: str) -> int:
    if not text.isdecimal() or int(text) < 1:
        raise argparse.ArgumentTypeError("it must be at least 1")
    return int(text)


def joined(words: list[str]) -> list[str]:
    """`--ready probe PATH` as two options."""
    for at in range(len(words) - 2):
        if words[at : at + 2] == ["--ready", "probe"] and words[at + 2].startswith("/"):
            return [*words[: at + 2], "--probe", *words[at + 2 :]]
    return words


def arguments(words: list[str]) -> argparse.Namespace:
    """The options, and the program after `--`."""
    cut = words.index("--") if "--" in words else len(words)
    made = parser()
    given, strange = made.parse_known_args(joined(words[:cut]))
    if strange:
        made.error(fault_of_strange(strange, made, cut < len(words)))
    given.program = words[cut + 1 :]
    if cut < len(words) and not given.program:
        made.error("no PROGRAM after --")
    if given.json and not given.check:
        made.error("--json is an option of --check")
    if given.init and not given.wsgi and not given.program:
        made.error("--init takes a PROGRAM or --wsgi, for which it writes CONFIG")
    if fault := fault_of_told(given) or (None if given.init else fault_of_file(given)):
        made.error(fault)
    if given.wsgi and given.program:
        made.error("give --wsgi or a PROGRAM, not both")
    fault = None if given.wsgi or given.program and not given.preload else fault_of_limits(given)
    fault = fault or fault_of_folder(place_of(given))
    if fault:
        made.error(fault)
    if given.preload and not given.wsgi and not given.program and not runs_in(given.config):
        made.error("--preload is an option of --wsgi or a PROGRAM, and there is none")
    in_file = set() if given.init else runs_in(given.config)
    is_adapted = given.program and not given.preload or Runs.PROGRAM in in_file
    is_wsgi, is_preloader = given.wsgi or in_file & OF_WSGI, given.wsgi and given.preload or Runs.PRELOADED in in_file
    if given.wsgi and given.ready and (given.ready != ["probe"] or len(given.probe) != 1):
        made.error(f"argument --ready: of a MODULE:APP it takes probe PATH, not: {given.ready[-1]}")
    # An application is asked once, before it serves: its worker takes the path alone.
    given.asked, given.probe = given.probe, [] if given.wsgi and given.ready else given.probe
    for options, is_for, kind in [
        (PROGRAM, is_adapted, "a PROGRAM"), (READY, is_adapted or is_wsgi, "a PROGRAM or --wsgi"), (WSGI_OPTIONS, is_wsgi, "--wsgi"), (PRELOADER, is_preloader, "--wsgi with --preload")
    ]:
        strange = handed_on(given, options)
        if strange and not is_for:
            made.error(f"{strange[0]} is an option of {kind}, and there is none")
    return given


def fault_of_strange(words: list[str], made: argparse.ArgumentParser, has_cut: bool) -> str:
    """What is wrong with words that are no options, and what is meant perhaps."""
    options = [word for word in words if word.startswith("-")]
    if not options:
        hint = "" if has_cut else ": the program and its arguments follow after --"
        return f"more than one CONFIG: {' '.join(words)}{hint}"
    name = options[0].partition("=")[0]
    known = [option for action in made._actions for option in action.option_strings]
    near = difflib.get_close_matches(name, known, 1, 0.75)
    hint = "the number of workers is in CONFIG: workers = 4, or without one --workers 4" if name in WORKER_OPTIONS else f"the nearest is {near[0]}" if near else "see --help"
    return f"{name} is no option: {hint}"


def runs_in(config: str | None) -> set[Runs]:
    """How workers are run by the table `service` of a file, as far as it can be read; none where it is missing."""
    try:
        found = tomllib.loads(text_of(pathlib.Path(config or "")).decode())
        table = found["service"]
        tables = [table, *table.get("groups", {}).values()]
        runs = {
            (Runs.PRELOADED if one.get("preload") else Runs.WSGI) if "wsgi" in one else
            (Runs.PRELOADER if one.get("preload") else Runs.PROGRAM)
            for one in tables if "wsgi" in one or "program" in one
        }
    except (OSError, ValueError, KeyError, TypeError, AttributeError, RecursionError):
        return set()
    return runs


def hooks_of(given: argparse.Namespace) -> dict[str, str]:
    """The programs that are told of events."""
    named = {event: getattr(given, event.replace("-", "_")) for event in EVENTS}
    return {event: program for event, program in named.items() if program}


def fault_of_told(given: argparse.Namespace) -> str | None:
    """What is wrong with what the service tells, if something is."""
    sites = [("--page", given.page)] if given.page else []
    sites += [("--metrics", given.metrics)] if given.metrics and is_site(given.metrics) else []
    faults = [fault_of_site(option, text, given.public) for option, text in sites]
    faults += [f"--{event}: {fault}" for event, program in hooks_of(given).items() if (fault := fault_of(program))]
    return next(filter(None, faults), None)


def fault_of_limits(given: argparse.Namespace) -> str | None:
    """What is wrong with the limits of a worker that has no adapter, which would look at them."""
    said = [("--ready-within", text) for text in given.ready_within] + [("--finish", text) for text in given.finish]
    return next((f"argument {name}: invalid number of seconds: {text!r}" for name, text in said if not seconds_said(text) > 0), None)


def current_folder() -> str:
    """The path of the current folder with its symbolic links, as the shell names it; the empty text if there is none."""
    here = os.environ.get("PWD", "")
    try:
        if not os.path.isabs(here) or not os.path.samefile(here, "."):
            here = os.getcwd()
    except OSError:
        here = ""
    return here


def place_of(given: argparse.Namespace) -> str:
    """The path of the folder in which workers start."""
    return os.path.join(current_folder(), *given.chdir[-1:])


def fault_of_folder(folder: str) -> str | None:
    """What is wrong with a folder of --chdir."""
    if not folder or os.access(folder, os.X_OK) and os.path.isdir(folder):
        return None
    why = errno.ENOTDIR if os.path.exists(folder) and not os.path.isdir(folder) else errno.EACCES
    return f"--chdir: {folder}: {os.strerror(why if os.path.exists(folder) else errno.ENOENT)}"


def handed_on(given: argparse.Namespace, options: Options) -> list[str]:
    """Those of the options that were given, with their values."""
    found = []
    for option in options:
        for value in getattr(given, option[2:].replace("-", "_")):
            found += [option] if value is None else [option, value]
    return found


def worker_command(given: argparse.Namespace) -> list[str] | None:
    """What starts a worker, or the preloader that forks it, if the command line says it."""
    if given.wsgi:
        # (by the folder of who types it, and not by that in which workers start)
        given.access_log = [os.path.join(current_folder(), file) for file in given.access_log]
        options = handed_on(given, SHARED | WSGI_OPTIONS | PRELOADER) + (["--preloader"] if given.preload else [])
        options += ["--probe", *given.asked] if given.ready else []
        # (a path, which is not that of the folder in which it starts)
        named = given.python or sys.executable
        python = os.path.join(current_folder(), named) if "/" in named else named
        return checked([python, str(places.WSGI), *options], [given.wsgi], place_of(given))
    if given.preload:
        return [*given.program]
    if given.program:
        options = handed_on(given, SHARED | READY | PROGRAM)
        return checked([str(places.ACTIVATE), *options], ["--", *given.program], place_of(given))
    return None


def told_of(given: argparse.Namespace) -> Told:
    """What the command line says of workers."""
    command = worker_command(given)
    is_preloaded, threads = bool(given.preload), (int(given.threads[-1]) if given.threads else WSGI_THREADS) + bool(given.access_log)
    runs = (Runs.PRELOADED if is_preloaded else Runs.WSGI) if given.wsgi else Runs.PRELOADER if is_preloaded else Runs.PROGRAM
    of_wsgi = handed_on(given, SHARED | WSGI_OPTIONS | PRELOADER) + (["--probe", *given.asked] if given.ready and given.wsgi else [])
    return Told(
        tuple(command) if command else None, runs if command else None, tuple(given.program), given.wsgi or "", given.python,
        is_preloaded, given.chdir[-1] if given.chdir else "", place_of(given), tuple(handed_on(given, SHARED | READY | PROGRAM)),
        tuple(of_wsgi), program_of(given) or "", seconds_given(given.ready_within), seconds_given(given.finish), threads if given.wsgi else 0,
        given.hard_memory,
    )


def seconds_given(texts: list[str]) -> float | None:
    return seconds_said(texts[-1]) if texts else None


def program_of(given: argparse.Namespace) -> str | None:
    """The program of workers by the command line, which is looked for before a start; nothing if an option says where to look
    for it."""
    if any(setting.startswith("PATH=") for setting in given.env):
        return None
    return given.program[0] if given.program else None


def fault_of_adapter(recipe: Recipe, folder: str) -> str | None:
    """What the adapter itself says against its options, or lacks."""
    if not recipe.runs or not recipe.runs.has_adapter:
        return None
    first = 2 if recipe.runs in OF_WSGI else 1
    words, streams = [*recipe.words[:first], "--check", *recipe.words[first:]], {"stdin": subprocess.DEVNULL, "capture_output": True}
    try:
        found = subprocess.run(words, **streams, text=True, cwd=recipe.folder or folder or None)  # type: ignore[call-overload]
    except OSError as fault:
        return f"{fault.filename or words[0]}: {fault.strerror}"
    return found.stderr.strip().splitlines()[-1].partition(": ")[2].removeprefix("error: ") if found.returncode else None


def processes_each(recipes: Iterable[Recipe]) -> int:
    """How many processes and threads a worker is at least: those of its adapter and of the application."""
    # (and the process that reads what it says, and its shim)
    return max((one.processes() + 1 + bool(one.runs and one.runs.is_forked) for one in recipes), default=2)


def checked(adapter: list[str], program: list[str], folder: str) -> list[str]:
    """The adapter's command, whose options the adapter itself has looked at, in the folder in which it starts."""
    streams: dict[str, Any] = {"stdin": subprocess.DEVNULL, "capture_output": True, "text": True, "cwd": folder or None}
    try:
        found = subprocess.run([*adapter, "--check", *program], **streams)
    except OSError as fault:
        parser().error(f"{adapter[0]}: {fault.strerror}")
    if found.returncode:
        parser().error(found.stderr.strip().splitlines()[-1].partition(": ")[2].removeprefix("error: "))
    return [*adapter, *program]

"""prefork-serve --init: a configuration for a command line, with the keys that are usual beside it as comments."""
import argparse
import json
import pathlib
from typing import Any

from .events import EVENTS
from .keys import KEYS
from .quickly import ADDRESS, QUICK_TIMEOUT, WORKERS

SITE_FILE = "site.toml"
SITE_HEAD = """# A service of Prefork. prefork-serve {file} starts it, and prefork-ctl HUP goes over to this file as it is then.
# prefork-serve --check {file} says what is wrong with it, and starts nothing. All keys: man prefork.toml

# Where it serves, how many workers do, and after how many seconds without a sign of life a worker is replaced.
"""
SERVICE_TEXT = """
# What runs. A reload changes all of it, and a rollback takes all of it back.
[service]
"""
# The keys that are usual, each with what it means and a value.
USUAL = (
    ("folder", "where workers start; a symbolic link is followed anew at each start", "/srv/site"),
    ("ready", "when a worker is ready: accept (it waits for connections), notify (it says so), or probe (it answers the page)", "accept"),
    ("probe", "a page that is asked for before each sign of life", "/alive"),
    ("ready_within", "how many seconds it may take to be ready, and then to finish what it serves", 30),
    ("finish", "", 30),
    ("stop", "the signal that tells it to finish", "TERM"),
    ("threads", "how many requests a worker answers at a time", 4),
    ("timeout", "end a worker whose threads have all been at one request for this number of seconds", 30),
    ("user", "who runs it, where root starts the service", "www-data"),
    ("nice", "how much it gives way to others, and what it may have", 5),
    ("limits", "", {"nofile": 4096}),
)
EXAMPLES_OF_WSGI, EXAMPLES_OF_PROGRAM = ("threads", "timeout"), ("probe", "stop")
VARIABLES = """
# Its environment. The value of a secret is read from its file at each start.
"""
EXAMPLES = '# COLOUR = "blue"\n# KEY = { file = "/run/secrets/key" }\n'


def toml_of(value: Any) -> str:
    if isinstance(value, dict):
        return "{ " + ", ".join(f"{key} = {toml_of(one)}" for key, one in value.items()) + " }"
    return json.dumps(value, ensure_ascii=False)


def number_of(text: str) -> int | float:
    return int(text) if text.isdecimal() else float(text)


def keys_of(given: argparse.Namespace) -> dict[str, Any]:
    """The keys that the options of a command line are."""
    found: dict[str, Any] = {"wsgi": given.wsgi} if given.wsgi else {"program": given.program}
    found |= {"preload": True} if given.preload else {}
    found |= {"python": given.python} if given.python else {}
    found |= {"folder": given.chdir[-1]} if given.chdir else {}
    given_probe = given.probe or given.asked
    for name in ("ready", "stop", "usr1", "access_log", "access_form"):
        found |= {name: getattr(given, name)[-1]} if getattr(given, name) else {}
    found |= {"probe": given_probe[-1]} if given_probe else {}
    for name in ("ready_within", "finish", "probe_within", "probe_limit", "threads", "timeout", "request_timeout", "keep"):
        found |= {name: number_of(getattr(given, name)[-1])} if getattr(given, name) else {}
    for name in ("trusted_proxy", "warm", "after_fork", "after_load"):
        found |= {name: getattr(given, name)} if getattr(given, name) else {}
    found |= {"hard_memory": given.hard_memory} if given.hard_memory else {}
    found |= {"listen_fds": False} if given.no_listen_fds else {}
    found |= {"blocking": True} if given.blocking else {}
    found |= {"answer_within": given.answer_within} if given.answer_within is not None else {}
    return {name: found[name] for name in KEYS if name in found}


def text_of(given: argparse.Namespace, file: str) -> str:
    """The text of the file."""
    own = keys_of(given)
    served = {"listeners": given.listen or [ADDRESS], "workers": given.workers or WORKERS, "timeout": QUICK_TIMEOUT}
    lines = [SITE_HEAD.format(file=file), *(f"{key} = {toml_of(value)}\n" for key, value in served.items()), SERVICE_TEXT]
    lines += [f"{key} = {toml_of(value)}\n" for key, value in own.items()]
    for name, means, value in USUAL:
        is_other = name in (EXAMPLES_OF_PROGRAM if given.wsgi else EXAMPLES_OF_WSGI)
        if name not in own and not is_other:
            lines += [f"# {means[0].upper()}{means[1:]}.\n" if means else "", f"# {name} = {toml_of(value)}\n"]
    variables = dict(one.split("=", 1) for one in given.env)
    lines += [VARIABLES, "[service.environment]\n" if variables else "# [service.environment]\n"]
    lines += [f"{name} = {toml_of(value)}\n" for name, value in variables.items()] or [EXAMPLES]
    hooks = {event: program for event in EVENTS if (program := getattr(given, event.replace("-", "_")))}
    lines += ["\n# Programs that are told what happens, with JSON on their input.\n", "[service.hooks]\n" if hooks else "# [service.hooks]\n"]
    lines += [f"{event} = {toml_of(program)}\n" for event, program in hooks.items()] or ['# on-rolled-back = "/usr/local/bin/tell-us"\n']
    return "".join(lines)


def write(given: argparse.Namespace) -> str | None:
    """Writes the file; why not, if it can't."""
    file = pathlib.Path(given.config or SITE_FILE)
    try:
        with open(file, "x") as new:
            new.write(text_of(given, str(file)))
    except FileExistsError:
        return f"{file} is there already: --init writes a new file alone"
    except OSError as fault:
        return f"{file}: {fault.strerror}"
    print(f"{file} is written. prefork-serve {file} starts the service.")
    return None

"""prefork-serve [OPTIONS] CONFIG -- PROGRAM ARGUMENT..
prefork-serve [OPTIONS] --wsgi MODULE:APP CONFIG
prefork-serve [OPTIONS] CONFIG
prefork-serve [OPTIONS] --listen ADDRESS --workers N -- PROGRAM ARGUMENT..

Runs a service: the keeper of its sockets, and the master (`prefork supervise`) with its workers. Each worker is
PROGRAM, which takes its sockets by LISTEN_FDS, by a number ({fd} in an argument), or by its environment, or it serves
the WSGI application MODULE:APP. If CONFIG has a `command`, that is started instead, and speaks the worker convention
itself.

- HUP, USR1, USR2, WINCH, TTIN, TTOU, QUIT, INT and TERM, sent to it, become words of the master, one after another in
  the order in which they come. HUPs that wait in a row are one, and QUIT, INT and TERM go before what waits.
  `prefork-ctl WORD` sends a word too, and waits for its block. HUP and USR2 read CONFIG again, its command too.
- Each second the master is told a tick: it starts a worker again that has ended or no longer beats. More than 100
  workers have one tick in each second for each 100 of them, 5 seconds at most, and one after a second at the latest when
  a worker has let its sockets go.
- `USR2 attended`, which prefork-ctl alone can send, asks its operator twice before it goes on: see prefork-ctl. While it
  asks, no tick is told and other words wait, those that stop the service too.
- A master that ends without having been told to, or says that the new master of an upgrade is lost, is started again,
  with the configuration that was accepted last. Until its workers are ready those of the dead one serve on.
- A keeper that ends or hangs is started again, with the same sockets.
- A start opens all addresses, and asks whether the limits allow a reload; if not, it ends with the reason.

The folder F (`run`) belongs to its user alone. It has `serve.pid`, the sockets `ctl.sock`, `keeper.sock` and, after an
upgrade, `masters.sock`, `config.toml`, what was accepted last, `journal`, each word with its time, its report and the
reasons of failed calls, and `records`, what the masters printed, in parts and of a bounded size (`blocks` leads to the
newest part). `prefork-ctl certify` checks them. A second service in the same folder is refused. The status is 0 after a
stop, and 1 if the service could not run.
"""
import argparse
import contextlib
import errno
import io
import json
import os
import pathlib
import re
import socket
import sys
import tempfile
import time
from typing import Any

from . import beginning, places, programs
from .becoming import become_core, has_journal
from .bounds import ADAPTER_SECONDS
from .claiming import ClaimedFolder
from .commands import Commands
from .configuration import Configuration
from .errors import take_standard
from .folder import Folder, content_of, say
from .keeper import DEFER, socket_options
from .inheriting import make_way, of_systemd
from .limits import answer_seconds, known, limits_of
from .needs import needs_of, shortages
from .options import arguments, fault_of_adapter, hooks_of, place_of, processes_each, told_of
from .programs import fault_of
from .quickly import configured
from .reader import SiteFile
from .recipes import Runs
from .records import MEGABYTE
from .refusing import refusal_of, refusal_shown
from .sites import is_site
from .starting import take_signals
from .titles import set_title
from .web import opened

# What `say` puts before each text.
SAID_BY_US = re.compile("^prefork-serve: ", re.M)


def fitting(given: argparse.Namespace, folder: ClaimedFolder) -> tuple[SiteFile, Commands] | None:
    """The configuration that the service starts with, and what starts its workers; nothing if it can't be served, and why was
    said."""
    given.config = given.config or configured(given, folder)
    site = SiteFile(pathlib.Path(given.config), told_of(given))
    commands = Commands(folder, given.config, site.configuration())
    if check_fit(given, site, commands) or (fall_back(site, commands) and check_fit(given, site, commands)):
        if overridden := overridden_of(given, site):
            say(f"the command line overrides {', '.join(overridden)} of {given.config}, as long as this service runs")
        keep_files(site, commands)
        return site, commands
    commands.clear()
    return None


def fall_back(site: SiteFile, commands: Commands) -> bool:
    """Takes the configuration that a service had accepted which was killed; whether there is one."""
    if not commands.accepted.exists():
        return False
    say(f"{site.config} is refused; the service that was killed had accepted another text, and starts with that")
    site.take(commands.accepted.read_bytes(), kept_files(commands))
    commands.take_first(site.configuration())
    return True


def keep_files(site: SiteFile, commands: Commands) -> None:
    """Where the configuration is the one that a killed service had accepted, its files of variables have what they had."""
    if site.text == content_of(commands.accepted) and (kept := kept_files(commands)):
        site.take(site.text, kept)


def kept_files(commands: Commands) -> dict[str, str] | None:
    kept = content_of(commands.kept)
    return json.loads(kept) if kept else None


def overridden_of(given: argparse.Namespace, site: SiteFile) -> list[str]:
    """The keys of the file that the command line overrides."""
    found = [f"hooks.{event}" for event in hooks_of(given) if event in site.setup.hooks]
    within = ["answer_within"] if given.answer_within is not None and site.setup.answer_within is not None else []
    return [*site.setup.overridden, *within, *found]


def check_fit(given: argparse.Namespace, site: SiteFile, commands: Commands) -> bool:
    """Whether the configuration can be served; why not is said."""
    if fault := fault_of(given.prefork):
        say(f"--prefork: {fault}")
        return False
    if site.why:
        # It could not be read, and that was said.
        return False
    refusal, recipes = refusal_of(given.prefork, commands.source()), site.setup.recipes
    if refusal:
        say(refusal_shown(given.config, refusal))
    sites, is_forked = bool(given.page) + bool(given.metrics), any(one.runs and one.runs.is_forked for one in recipes)
    needs = needs_of(site.for_master, processes_each(recipes), sites, bool(recipes) and site.has_adapter(), is_forked)
    faults = [] if refusal else [f"{given.config}: {fault}" for fault in shortages(needs)]
    own, found = site.refusal(), site.faults()
    faults += found or ([f"{given.config}: {own[1]}"] if own else [])
    # A service that was killed starts again without its program: that may be back before long.
    missing = [] if refusal or commands.accepted.exists() else missing_of(given, site)
    for fault in [*faults, *missing]:
        say(fault)
    return bool(recipes) and not refusal and not faults and not missing


def missing_of(given: argparse.Namespace, site: SiteFile) -> list[str]:
    """What workers need that is missing: a program, a folder, a file with a secret, what an adapter needs."""
    found, told = [], site.told
    for one in site.setup.recipes:
        folder = one.folder or told.place
        is_told = one.runs is not Runs.COMMAND and not site.has_table()
        where = "PROGRAM" if is_told else f"{given.config}: group {one.name}" if one.name else given.config
        texts = [fault_of(one.program, folder) if one.program else None]
        if one.folder and not os.path.isdir(one.folder):
            texts = [f"folder: {one.folder}: {os.strerror(errno.ENOENT)}"]
        texts += [f"{name}: {fault}" for name, path in one.secrets if (fault := unread(path))]
        texts += [] if is_told or any(texts) else [fault_of_adapter(one, told.place)]
        found += [f"{where}: {text}" for text in texts if text]
    return found


def unread(path: str) -> str | None:
    """Why a file with the value of a variable can't be read."""
    try:
        with open(path, "rb"):
            return None
    except OSError as fault:
        return f"{path}: {fault.strerror}"


def limits_for(given: argparse.Namespace, site: SiteFile) -> list[str]:
    """The limits of masters."""
    recipes, within = site.setup.recipes, answer_seconds(given.answer_within, site.setup.answer_within)
    has_adapter = any(one.runs and one.runs.has_adapter for one in recipes)
    return limits_of(within, max(one.seconds() for one in recipes), has_adapter)


def settings_of(
    given: argparse.Namespace, folder: ClaimedFolder, site: SiteFile, commands: Commands, stored: dict[str, socket.socket],
) -> dict[str, Any]:
    """What the core is told."""
    configurations = ["--from", commands.now, "--to", commands.next]
    supervise = [given.prefork, "supervise", "--verbose", "--program", places.LAUNCH, *configurations]
    place, limits = pathlib.Path(given.records or folder.path).absolute(), known(given.prefork, limits_for(given, site))
    return {
        "folder": str(folder.path), "lock": folder.lock, "config": str(given.config),
        "configuration": site.configuration().as_json(), "supervise": [str(word) for word in supervise], "limits": limits,
        "hooks": hooks_of(given),
        "of_keeper": [*([DEFER] if given.defer_accept else []), *socket_options(given)],
        "place": str(place), "records_bytes": int(given.records_size * MEGABYTE),
        "stored": {address: one.fileno() for address, one in stored.items()}, "heir": folder.heritage.heir(),
        "inherited": {address: one.fileno() for address, one in folder.heritage.sockets.items()},
        "watched": given.reload_on_change, "keeps_trying": given.keep_trying,
        "told": told_once(given, folder, place, site),
    }


def told_once(given: argparse.Namespace, folder: Folder, place: pathlib.Path, site: SiteFile) -> dict[str, Any]:
    """What prefork-watch is told of the service once."""
    return {
        "process": os.getpid(), "began": time.monotonic(), "folder": str(folder.path), "file": os.path.abspath(given.config),
        "prefork": str(given.prefork), "records": str(place / "records"), "journal": str(place / "journal"),
        "metrics": given.metrics, "page": given.page, "hosts": given.host,
        "told": site.told.as_json(), "ready_seconds": site.told.ready_within or ADAPTER_SECONDS,
    }


def fault_of_sites(given: argparse.Namespace) -> str | None:
    """Why an address of a page, or of metrics, can't be had, if that is so. prefork-watch opens it."""
    for address in [address for address in (given.page, given.metrics) if address]:
        if not is_site(address) and address != given.page:
            continue
        try:
            opened(address).close()
        except OSError as fault:
            return str(fault)
        if address.startswith("/"):
            os.unlink(address)
    return None


def check(given: argparse.Namespace) -> int:
    """Says whether the service could be started, and starts nothing; the status."""
    said = io.StringIO()
    with tempfile.TemporaryDirectory(prefix="prefork-check-") as room:
        folder = ClaimedFolder(f"{room}/run")
        folder.claim()
        with contextlib.redirect_stderr(said) if given.json else contextlib.nullcontext():
            found = fitting(given, folder)
        if found:
            found[1].clear()
        print(shown_check(given, found[1].current if found else None, said.getvalue()), end="")
        return 0 if found else 1


def shown_check(given: argparse.Namespace, found: Configuration | None, said: str) -> str:
    """What a check has found, in words or as JSON; why not is on standard error, or in `said`."""
    addresses, workers = (len(found.addresses), found.workers) if found else (0, 0)
    if given.json:
        told = [text.rstrip("\n") for text in SAID_BY_US.split(said)[1:]]
        return json.dumps({"config": given.config, "fits": bool(found), "addresses": addresses, "workers": workers, "said": told}) + "\n"
    return f"{given.config}: fits: {addresses} addresses, {workers} workers\n" if found else ""


def folder_of(given: argparse.Namespace) -> ClaimedFolder:
    """The folder of the service, which is still to be taken. Ends the process if it is not fit."""
    try:
        return ClaimedFolder(given.folder)
    except FileExistsError:
        sys.exit(f"prefork-serve: {given.folder} is a file, and --folder takes a folder")
    except OSError as fault:
        sys.exit(f"prefork-serve: {fault.filename or given.folder}: {fault.strerror}")


def start(given: argparse.Namespace, folder: ClaimedFolder, stored: dict[str, socket.socket]) -> int:
    """Looks whether the service can be started, and becomes its core; the status if it can't."""
    try:
        found = fitting(given, folder)
    except OSError as fault:
        sys.exit(f"prefork-serve: {fault}")
    if not found:
        return 1
    site, commands = found
    if why := fault_of_sites(given):
        say(why)
        commands.clear()
        return 1
    addresses = [*commands.current.addresses]
    kept = [*stored, *folder.heritage.take(addresses, stored)]
    make_way(folder, [address for address in addresses if address not in kept])
    descriptors = [*(one.fileno() for one in stored.values()), *folder.heritage.descriptors()]
    become_core(settings_of(given, folder, site, commands, stored), [folder.lock, *descriptors])
    return 1


def main() -> int:
    take_standard()
    given = arguments(sys.argv[1:])
    if given.init:
        fault = beginning.write(given)
        return sys.exit(f"prefork-serve: {fault}") if fault else 0
    if given.check:
        programs.check()
        return check(given)
    set_title("prefork-serve")
    programs.check()
    take_signals()
    stored, folder = of_systemd(), folder_of(given)
    os.environ |= {
        "PREFORK_KEEPER": str(folder.keeper), "PREFORK_PROGRAM": str(given.prefork), "PREFORK_FOLDER": str(folder.path),
        "PREFORK_PLACE": place_of(given),
        "PREFORK_LOG": "plain" if given.plain_log else "named" if has_journal() else "timed",
    }
    try:
        # (a stop may come at any moment from here on)
        folder.claim()
        return start(given, folder, stored)
    except OSError as fault:
        sys.exit(f"prefork-serve: {fault.filename or given.folder}: {fault.strerror}")
    finally:
        # (a start that becomes the core does not come back)
        folder.clear()

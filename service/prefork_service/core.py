"""The core of prefork-serve: what must not die. Words in their order, the master, the keeper, limits and records.

It is the same process that has read the command line, and it has none of that any more: it opens no network port, starts no
process that it waits for, and reads no text of an operator: prefork-read does that. All else is told by prefork-watch.
"""
import contextlib
import functools
import os
import pathlib
import selectors
import socket
import sys
from collections.abc import Callable
from typing import TYPE_CHECKING, Any

from .barrier import Barrier, Broken
from .chronicle import Chronicle
from .commands import Commands
from .configuration import configuration_in
from .errors import take_standard
from .folder import Folder, say
from .holding import Unfit
from .keeping import KeeperProcess
from .packets import Packet
from .service import Service
from .starting import settings_of, take_signals
from .systemd import notify
from .titles import set_title

if TYPE_CHECKING:
    from .preloading import Preloading

# What is added to an address that its user may not have.
LOW = 1024
ADVICE = ". A port below 1024 needs a socket of systemd (prefork@NAME.socket), or CAP_NET_BIND_SERVICE"
Given = dict[str, Any]


def sockets_of(told: dict[str, int]) -> dict[str, socket.socket]:
    """The sockets that the start has found, by their addresses."""
    found = {}
    for address, number in told.items():
        found[address] = socket.socket(fileno=number)
        found[address].set_inheritable(False)
    return found


def end_earlier(number: int) -> None:
    """The keeper of a killed service, which has given its sockets over this connection, may end."""
    if number >= 0:
        with contextlib.suppress(OSError), socket.socket(fileno=number) as keeper:
            keeper.send(Packet.ENDS.encode())


def fault_shown(fault: str) -> str:
    """A fault of a start, with what to do about a low port."""
    port = fault.removesuffix(": Permission denied").rpartition(":")[2]
    is_low = fault.endswith(": Permission denied") and port.isdigit() and int(port) < LOW
    return fault + ADVICE * is_low


def preloading_of(keeping: KeeperProcess, seconds: float, ends: list[Callable[[], Any]]) -> "Preloading":
    """What forks workers, once a configuration has an application that is loaded once."""
    from .preloading import Preloading
    made = Preloading(keeping.events, keeping.folder, seconds)
    ends.insert(0, made.end)
    return made


def begin(settings: Given, folder: Folder, commands: Commands, ends: list[Callable[[], Any]]) -> Service:
    """Starts a service: its keeper, its addresses, and what is there beside them only if it is asked for."""
    place, told = pathlib.Path(settings["place"]), settings["told"]
    stored, inherited = sockets_of(settings["stored"]), sockets_of(settings["inherited"])
    keeping = KeeperProcess(selectors.DefaultSelector(), folder, settings["of_keeper"], stored, inherited)
    ends.insert(0, keeping.end)
    end_earlier(settings["heir"])
    chronicle = Chronicle(folder, place, settings["records_bytes"])
    ends.insert(1, chronicle.end)
    if wanted := keeping.wanted(commands.current):
        wanted.begin(commands.current)
    keeping.hold([*commands.current.addresses])
    commands.told_hooks = settings["hooks"]
    commands.preloads = functools.partial(preloading_of, keeping, told["ready_seconds"], ends)
    service = Service(keeping, settings["supervise"], commands, chronicle, settings["limits"], told)
    ends[:0] = [service.reading.end, service.feed.end]
    if settings["watched"]:
        from .changes import Changes
        service.changes = Changes(keeping.events, settings["watched"], [folder.path, place])
    service.keeps_trying = settings["keeps_trying"]
    return service


def serve(settings: Given) -> int:
    """Serves until the service is told to stop; the status."""
    folder = Folder(settings["folder"], settings["lock"])
    ends: list[Callable[[], Any]] = [folder.clear]
    try:
        # (a stop that came while it became the core ends it here, and what was made is removed)
        take_signals()
        commands = Commands(folder, settings["config"], configuration_in(settings["configuration"]))
        ends.insert(0, commands.clear)
        service = begin(settings, folder, commands, ends)
        status = service.run()
        if service.failure:
            sys.exit(f"prefork-serve: {service.failure}")
        return status
    except Broken as fault:
        # As if it were killed: the next start finds workers and sockets as systemd has them.
        say(f"{fault}; it ends, and leaves everything as it is")
        sys.stderr.flush()
        os._exit(1)
    except (OSError, Unfit) as fault:
        sys.exit(f"prefork-serve: {fault_shown(str(fault))}")
    finally:
        notify("STOPPING=1")
        for end in ends:
            Barrier(say).duty(end)


def main(number: int) -> int:
    take_standard()
    set_title("prefork-serve")
    return serve(settings_of(number))

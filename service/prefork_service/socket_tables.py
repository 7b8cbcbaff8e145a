"""Tables `[sockets."ADDRESS"]` of a configuration, whose kinds and ranges the master checks: what is wanted of each listener, and
what this system does not know or allow of their owners and groups.
"""
import grp
import os
import pathlib
import pwd
import re
import tomllib
from typing import Any

from .opening import MOST_QUEUE, Wanted
from .recipes import Fault

# The table, and the bit of the right to give files away.
SOCKETS, CHOWN = "sockets", 1
MOST_NUMBER = (1 << 32) - 2
MODE = re.compile(r"[0-7]{3,4}")
ACCOUNT_KINDS = {"group": "group", "owner": "user"}


def tables_in(text: bytes) -> dict[str, dict[str, Any]]:
    """The tables of a configuration, by address; none where the master is to refuse them."""
    try:
        found = tomllib.loads(text.decode()).get(SOCKETS, {})
    except (ValueError, RecursionError):
        return {}
    return {address: table for address, table in found.items() if isinstance(table, dict)} if isinstance(found, dict) else {}


def options_in(text: bytes) -> dict[str, Wanted]:
    """What is wanted of each socket. Of what the master or the service is to refuse, nothing is."""
    return {address: wanted_of(table) for address, table in tables_in(text).items()}


def wanted_of(table: dict[str, Any]) -> Wanted:
    backlog, defers, mode = table.get("backlog"), table.get("defer_accept"), table.get("mode")
    return Wanted(
        backlog=backlog if isinstance(backlog, int) and 0 < backlog <= MOST_QUEUE else None,
        defer_accept=defers if isinstance(defers, bool) else None,
        owner=number_of("owner", table.get("owner")), group=number_of("group", table.get("group")),
        mode=int(mode, 8) if isinstance(mode, str) and MODE.fullmatch(mode) else None,
    )


def number_of(key: str, name: Any) -> int | None:
    """The number of a group or an owner, by its name or as it is; nothing if there is none."""
    if not isinstance(name, str):
        return None
    if name.isascii() and name.isdigit():
        return int(name) if int(name) <= MOST_NUMBER else None
    try:
        return grp.getgrnam(name).gr_gid if key == "group" else pwd.getpwnam(name).pw_uid
    except KeyError:
        return None


def faults_of_sockets(text: bytes) -> list[Fault]:
    """What this system does not know or allow of the owners and groups of sockets."""
    found = []
    for address, table in tables_in(text).items():
        for key, kind in ACCOUNT_KINDS.items():
            if isinstance(name := table.get(key), str) and (why := fault_of_name(key, name)):
                found.append(Fault((SOCKETS, address, key), f'{SOCKETS}."{address}".{key} is "{name}"{why.format(kind=kind)}'))
    return found


def fault_of_name(key: str, name: str) -> str:
    number = number_of(key, name)
    if number is None:
        return ", which is no {kind} of this system"
    own = {os.geteuid()} if key == "owner" else {os.getegid(), *os.getgroups()}
    if number in own or may_give():
        return ""
    return ": only root can give a socket to another user" if key == "owner" else ": only root can give a socket to a group in which this user is not"


def may_give() -> bool:
    """Whether this process may give files away: root in a container perhaps not, and a service with CAP_CHOWN."""
    try:
        rights = re.search(r"^CapEff:\s*([0-9a-f]+)$", pathlib.Path("/proc/self/status").read_text(), re.M)
    except OSError:
        rights = None
    return bool(int(rights[1], 16) & CHOWN) if rights else not os.geteuid()

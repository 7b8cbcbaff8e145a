"""Options of listeners, changed by words on sockets that are open, and taken back."""
import os
import pathlib
import socket
from typing import Any

from gate.addresses import place_of
from gate.waiting import SECONDS, until
from web.faults import another_keeper
from web.site import BROKEN, CLIENTS, Scenario, Site
from web.starts import status

# In the list of the system: a connection that is held back until its first bytes are there.
HELD_BACK = "03"


def options(site: Site, backlog: int, defers: bool, mode: str, **more: str) -> dict[str, Any]:
    return {site.first: {"backlog": backlog, "defer_accept": defers}, path_of(site): {"mode": mode, **more}}


def path_of(site: Site) -> str:
    return str(site.room / "site.sock")


def length_of(site: Site, address: str) -> int:
    """The length of the queue at an address."""
    return next((one["most"] for one in status(site)["queues"] if one["address"] == address), 0)


def is_held_back(address: str) -> bool:
    """Whether a connection that says nothing is kept from the workers."""
    with socket.create_connection(place_of(address)) as client:
        own, theirs = (f"{port:04X}" for port in (client.getsockname()[1], place_of(address)[1]))
        lines = [line.split() for line in pathlib.Path("/proc/net/tcp").read_text().splitlines()[1:]]
        return any((one[1][-4:], one[2][-4:], one[3]) == (theirs, own, HELD_BACK) for one in lines)


def answer_at(path: str) -> str:
    with socket.socket(socket.AF_UNIX) as connection:
        connection.settimeout(SECONDS)
        connection.connect(path)
        connection.sendall(b"GET / HTTP/1.0\r\n\r\n")
        return connection.makefile("rb").read().decode()


def are(site: Site, after: str, backlog: int, defers: bool, mode: int) -> None:
    """What the two sockets have."""
    found = length_of(site, site.first)
    site.check(f"after {after} the queue is {found}", found == backlog)
    site.check(f"after {after} a connection is held back, or not", is_held_back(site.first) == defers)
    kept = os.stat(path_of(site)).st_mode & 0o777
    site.check(f"after {after} the mode is {kept:o}", kept == mode)
    site.check(f"after {after} the path is not served", "version " in answer_at(path_of(site)))


def sockets_of(site: Site) -> set[str]:
    """What tells the two listening sockets from others, as the keeper has them."""
    place = pathlib.Path(f"/proc/{site.keeper()}/fd")
    links = {os.readlink(file) for file in place.iterdir() if file.is_symlink()}
    listed = pathlib.Path("/proc/net/tcp").read_text() + pathlib.Path("/proc/net/unix").read_text()
    own = (f":{place_of(site.first)[1]:04X} 00000000:0000 0A", path_of(site))
    lines = [line for line in listed.splitlines() if any(text in line for text in own)]
    return {link for link in links if any(link.removeprefix("socket:[").rstrip("]") in line.split() for line in lines)}


def options_change_on_open_sockets(site: Site) -> None:
    """HUP and USR2 change the options of open sockets, which stay; a rollback leaves those of before; after the death of a
    keeper they can be changed as before; and what is not named is as usual again."""
    both = [site.first, path_of(site)]
    site.begin(listeners=both, sockets=options(site, 300, False, "0660"))
    are(site, "the start", 300, False, 0o660)
    kept = sockets_of(site)
    site.check(f"the sockets are {kept}", len(kept) == 2)
    for word, number, defers, mode in (("HUP", 200, True, "600"), ("USR2", 400, False, "0606")):
        site.configure(listeners=both, sockets=options(site, number, defers, mode))
        site.wants(word, 0, "done", 2)
        are(site, word, number, defers, int(mode, 8))
    rolled_back(site, both)
    keeper = site.keeper()
    site.kill(keeper)
    another_keeper(site, keeper)
    are(site, "the end of a keeper", 400, False, 0o606)
    site.configure(listeners=both, sockets=options(site, 250, True, "0640"))
    site.wants("HUP", 0, "done", 2)
    are(site, "HUP to another keeper", 250, True, 0o640)
    site.check("the sockets are others", kept == sockets_of(site))
    site.configure(listeners=both)
    site.wants("HUP", 0, "done", 2)
    usual = 0o777 & ~umask()
    are(site, "HUP to no options", int(pathlib.Path("/proc/sys/net/core/somaxconn").read_text()), False, usual)
    site.end("1")


def rolled_back(site: Site, both: list[str]) -> None:
    """A version that does not start, with other options: those of before stay. An owner that nobody is is refused."""
    site.install(BROKEN)
    site.configure(listeners=both, sockets=options(site, 100, True, "0640"))
    for word in ("HUP", "USR2"):
        site.wants(word, 3, "rolled-back", 2)
        are(site, f"{word} that was rolled back", 400, False, 0o606)
    site.install(site.app_text)
    site.configure(listeners=both, sockets=options(site, 100, True, "0640", owner="nobody-at-all"))
    block, faults = site.sent("HUP").communicate(timeout=SECONDS)
    site.check(f"an owner that nobody is: {block}", block.endswith("word HUP\nrefused socket-options\n"))
    site.check(f"it is not named: {faults}", '.owner is "nobody-at-all", which is no user of this system' in faults)
    are(site, "HUP that was refused", 400, False, 0o606)


def umask() -> int:
    found = os.umask(0)
    os.umask(found)
    return found


def a_new_address_has_its_options_at_once(site: Site) -> None:
    """An address that a reload adds is opened with them. One that is dropped and added again has those of its own time.
    Another master leaves them as they are."""
    path, both = path_of(site), [site.first, path_of(site)]
    site.begin(sockets={site.first: {"backlog": 300}})
    for mode in ("0620", "0602"):
        site.configure(listeners=both, sockets=options(site, 300, False, mode))
        site.wants("HUP", 0, "done", 2)
        are(site, "an address is added", 300, False, int(mode, 8))
        site.configure(sockets={site.first: {"backlog": 300}})
        site.wants("HUP", 0, "done", 2)
        until("the dropped path", lambda: not os.path.exists(path))
    site.configure(listeners=both, sockets=options(site, 250, False, "0606"))
    site.wants("HUP", 0, "done", 2)
    old = site.workers()
    site.kill(site.master())
    until("other workers", lambda: site.has_others(old))
    are(site, "the end of a master", 250, False, 0o606)
    site.end("1", may_fail=CLIENTS)


SCENARIOS: tuple[Scenario, ...] = (options_change_on_open_sockets, a_new_address_has_its_options_at_once)

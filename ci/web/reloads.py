"""Reloads: configurations, addresses, groups, numbers of workers, and what they roll back."""
import concurrent.futures
import os
import pathlib
import re
import shutil
import signal
import socket
import time

from gate.addresses import answer_of, is_answered, is_refused
from gate.waiting import SECONDS, until
from web.site import BROKEN, CLIENTS, Scenario, Site, text_of
from web.starts import status


def there_and_back(site: Site) -> None:
    """HUP to another configuration, and back. One `certify` knows one target: it is given the way there; see `back`."""
    site.begin()
    site.go_over_to(workers=3, retries=2)
    site.wants("HUP", 0, "done", 3)
    there = len(site.blocks())
    site.configure()
    site.wants("HUP", 0, "done", 2)
    text = site.blocks()
    site.end("1")
    site.certify(text[: text.rindex("word HUP\n")] if "word HUP\n" in text[there:] else text)


def back(site: Site) -> None:
    """The way back, certified: HUP to fewer workers."""
    site.begin(workers=3, retries=2)
    site.go_over_to()
    site.wants("HUP", 0, "done", 2)
    site.end("1")
    site.certify()


def adds_an_address(site: Site) -> None:
    """HUP that adds an address: it is served."""
    site.begin()
    site.go_over_to(listeners=[site.first, site.second])
    site.wants("HUP", 0, "done", 2)
    site.check("the added address isn't served", answer_of(site.second).startswith("version 1 "))
    site.end("1")
    site.certify()


def drops_an_address(site: Site) -> None:
    """HUP that drops an address: the other one stays, and the dropped one is refused after a while."""
    site.begin(listeners=[site.second, site.first])
    site.check("the second address isn't served", answer_of(site.second).startswith("version 1 "))
    site.go_over_to()
    site.wants("HUP", 0, "done", 2)
    until("the dropped address is refused", lambda: is_refused(site.second))
    site.end("1")
    site.certify()


def two_groups(site: Site) -> None:
    """HUP to two groups of workers: each address is served by its own. Where the worker of the second is killed, the
    first is served on, and a tick mends."""
    site.begin()
    web, admin = {"listeners": [site.first], "workers": 2}, {"listeners": [site.second], "workers": 1}
    site.go_over_to(groups=[web, admin])
    site.wants("HUP", 0, "done", 3)
    for address, numbers in ((site.first, "01"), (site.second, "2")):
        answers = [answer_of(address) for _ in range(20)]
        strange = [answer for answer in answers if not re.search(rf" worker 1\.2\.[{numbers}] ", answer)]
        site.check(f"{address} is served by a worker of another group: {strange}", not strange)
    victim = int(answer_of(site.second).split()[-1])
    os.kill(victim, signal.SIGKILL)
    until("another worker", lambda: len(site.workers() - {victim}) == 3)
    until("an answer of it", lambda: is_answered(site.second))
    site.end("1")
    site.certify()


def more_and_less(site: Site) -> None:
    """TTIN, TTOU."""
    site.begin()
    site.wants("TTIN", 0, "done", 3)
    site.wants("TTOU", 0, "done", 2)
    site.end("1")
    site.certify()


def no_workers(site: Site) -> None:
    """WINCH: requests wait in the queues of all addresses until TTIN gives a worker."""
    site.begin(listeners=[site.first, site.second])
    site.wants("WINCH", 0, "done", 0)
    with concurrent.futures.ThreadPoolExecutor() as pool:
        waits = pool.submit(answer_of, site.second)
        # Longer than the keeper keeps an address that was dropped.
        time.sleep(3)
        site.wants("TTIN", 0, "done", 1)
        site.check("what waited at the second address was not answered", waits.result().startswith("version 1 "))
    site.wants("HUP", 0, "done", 2)
    site.end("1")
    site.certify()


def another_command(site: Site) -> None:
    """HUP to another command: its workers start by that one. A way back starts the old command again, also where the
    new one can't be started, and a configuration without a command is rolled back. After USR2 the new master's workers
    start by the new one too."""
    other = site.room / "other"
    other.mkdir()
    for file in site.home.iterdir():
        shutil.copy(file, other)
    (other / "app").write_text(site.version(2))
    site.begin()
    old = site.workers()
    site.configure(command=[str(site.room / "missing"), "child"])
    sent = site.sent("HUP")
    # A worker of the old generation that is started again on the way back.
    os.kill(min(old), signal.SIGKILL)
    site.heard(sent, "HUP", 3, "rolled-back", 2)
    site.configure(command=[])
    site.wants_refused("HUP", "refused C9")
    site.home = other
    site.configure()
    site.wants("HUP", 0, "done", 2)
    site.answered_by(2)
    site.wants("TTIN", 0, "done", 3)
    site.wants("USR2", 0, "done", 2)
    site.answered_by(2)
    site.end("12", may_fail=CLIENTS)


def a_broken_file(site: Site) -> None:
    """HUP after the application's file was replaced by one that doesn't start."""
    site.begin()
    site.install(BROKEN)
    sent = site.sent("HUP")
    _, said = sent.communicate(timeout=SECONDS)
    site.check(f"the operator isn't told what is started again: {said}", "the files as they are now" in said)
    site.check("the status doesn't say it", "the files as they are now" in (status(site)["of_files"] or ""))
    site.wants("HUP", 3, "rolled-back", 2)
    site.end("1")
    site.certify()


def a_refused_edit(site: Site) -> None:
    """A file that is refused as a configuration, and then a killed master, and a killed `serve`: both are started again
    with what was accepted."""
    site.begin()
    site.config.write_text("listeners = [\n")
    block, notes = site.sent("HUP").communicate(timeout=SECONDS)
    site.check(f"HUP: {block}", block == "word HUP\nrefused C1\n")
    site.check(f"the place is not named: {notes}", notes.startswith("prefork-ctl: site.toml, line "))
    old = site.workers()
    site.kill(site.master())
    until("two other workers", lambda: site.has_others(old))
    site.wants_refused("HUP", "refused C1")
    site.check_load(site.end_load(), "1")
    site.serve.kill()
    site.serve.wait()
    site.serve = site.started()
    until("the pid file of serve", lambda: text_of(site.run / "serve.pid") == f"{site.serve.pid}\n")
    until("an answer", lambda: is_answered(site.first))
    said = text_of(site.room / "said")
    for wanted in ("with the configuration that was accepted", "has changed since: HUP reads it", "starts with that"):
        site.check(f"{wanted!r} isn't said: {said}", wanted in said)
    site.wants_refused("HUP", "refused C1")
    site.configure()
    site.wants("HUP", 0, "done", 2)
    site.stop()


def a_held_address(site: Site) -> None:
    """HUP to an address that another program holds."""
    site.begin()
    host, _, port = site.second.rpartition(":")
    with socket.socket() as other:
        other.setsockopt(socket.SOL_SOCKET, socket.SO_REUSEADDR, 1)
        other.bind((host, int(port)))
        other.listen()
        site.go_over_to(listeners=[site.first, site.second])
        _, notes = site.sent("HUP").communicate(timeout=SECONDS)
        # By the keeper, or by the worker's last line.
        wanted = rf" await-ready 1\.2 0 : gone: .*{re.escape(site.second)}: Address already in use\n"
        site.check(f"the operator isn't told why: {notes}", re.search(wanted, notes))
        site.wants("HUP", 3, "rolled-back", 2)
    site.end("1")
    site.certify()


def a_unix_socket(site: Site) -> None:
    """HUP that adds a Unix socket: it is served, and goes with the service."""
    site.begin()
    path = str(site.room / "site.sock")
    site.go_over_to(listeners=[site.first, path])
    site.wants("HUP", 0, "done", 2)
    with socket.socket(socket.AF_UNIX) as connection:
        connection.connect(path)
        connection.sendall(b"GET / HTTP/1.0\r\n\r\n")
        site.check("a Unix socket isn't served", b"version 1 " in connection.makefile("rb").read())
    site.end("1")
    site.check("a Unix socket is left", not pathlib.Path(path).exists())
    site.certify()


SCENARIOS: tuple[Scenario, ...] = (
    there_and_back, back, adds_an_address, drops_an_address, two_groups, more_and_less, no_workers, another_command,
    a_broken_file, a_refused_edit, a_held_address, a_unix_socket,
)

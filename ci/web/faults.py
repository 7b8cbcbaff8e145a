"""Processes that are killed or hang: workers, masters, the service itself and its keeper."""
import concurrent.futures
import contextlib
import os
import pathlib
import re
import signal
import socket
import time
from typing import Any

from gate.addresses import answer_of, is_refused
from gate.waiting import SECONDS, until
from web.site import CLIENTS, Scenario, Site, descriptors, text_of
from web.starts import status
from web.systemd import Systemd


def a_worker_is_killed(site: Site) -> None:
    """A worker that is killed: a tick mends, and only requests in that worker fail, one of each client at most."""
    site.begin()
    victim = min(site.workers())
    os.kill(victim, signal.SIGKILL)
    until("the worker's end", lambda: victim not in site.workers())
    killed = time.monotonic()
    until("another worker", lambda: site.has_others({victim}))
    until("its block", lambda: re.search(r"^word tick (?!0$).*\n(?:\d.*\n)*.* fork ", site.blocks(), re.M))
    found = site.end("1", may_fail=CLIENTS)
    # (both measure by the clock of the system since its start)
    late = [it for it in found["failures"] if it["began"] > killed and not it["kept"]]
    site.check(f"requests on connections that were made after it failed: {late}", not late)
    site.certify()


def a_worker_owes_an_answer(site: Site) -> None:
    """A worker that is stopped: its master kills it in time, logs that, and starts another one."""
    site.options = ["--answer-within", "10"]
    site.begin()
    names = {worker["process"]: f"{worker['generation']}.{worker['number']}" for worker in status(site)["workers"]}
    victim = min(site.workers())
    os.kill(victim, signal.SIGSTOP)
    until("another worker", lambda: site.has_others({victim}))
    killed = re.findall(r"worker (\S+) is killed by its master: no answer within 10 s\n", text_of(site.room / "said"))
    site.check(f"one worker is killed, and told: {names.get(victim)}, {killed}", killed == [names.get(victim)])
    site.wants("HUP", 0, "done", 2)
    site.end("1", may_fail=CLIENTS)
    site.certify()


def a_master_is_killed(site: Site) -> None:
    """A master that is killed: its workers finish what they serve, and `serve` starts another one; requests wait."""
    site.begin()
    old = site.workers()
    site.kill(site.master())
    until("two other workers", lambda: site.has_others(old))
    site.wants("HUP", 0, "done", 2)
    site.end("1")
    site.certify()


def a_master_is_killed_beside_a_stopped_worker(site: Site) -> None:
    """A master that is killed, and one of its workers is stopped: nobody waits for that one, and `serve` kills it. Only
    requests in it fail."""
    site.options = ["--ready-within", "20"]
    site.begin()
    old = site.workers()
    victim = min(old)
    os.kill(victim, signal.SIGSTOP)
    site.kill(site.master())
    until("two other workers", lambda: site.has_others(old))
    said = text_of(site.room / "said")
    site.check(f"it isn't said: {said}", re.search(r"worker 1\.1\.\d has not ended within 20 s, and is killed\n", said))
    site.wants("HUP", 0, "done", 2)
    site.end("1", may_fail=CLIENTS)
    site.certify()


def a_reigning_master_is_killed(site: Site) -> None:
    """The new master of an upgrade is killed after the old one has left: the same."""
    site.begin()
    site.install(site.version(2))
    site.wants("USR2", 0, "done", 2)
    old = site.workers()
    site.kill(site.new_master())
    until("two other workers", lambda: site.has_others(old))
    site.wants("HUP", 0, "done", 2)
    site.end("12")
    site.certify()


def a_serve_is_killed(site: Site) -> None:
    """A `serve` that is killed takes all with it: its master lets a slow request end. The next start waits for that,
    and clears what was left."""
    began = site.hold_slow()
    site.begin()
    site.end_load()
    with concurrent.futures.ThreadPoolExecutor(2) as pool:
        asked = pool.submit(answer_of, site.first, "/slow")
        try:
            until("the slow request", began.exists)
            site.serve.kill()
            site.serve.wait()
            waited = pool.submit(site.let_go_once, "waits for processes of an earlier service")
            site.begin()
        finally:
            site.hold.unlink(missing_ok=True)
        waited.result()
        site.check("the slow request isn't answered", asked.result(SECONDS).startswith("version 1 "))
    site.wants("HUP", 0, "done", 2)
    site.end("1")
    site.certify()


def both_are_killed(site: Site) -> None:
    """`serve` and its master killed under load, while a request is slow: it is answered, and the next start does not wait
    for it. The workers serve on, the keeper keeps the sockets, and the next start has the same ones: no request is lost."""
    began = site.hold_slow()
    site.begin(listeners=[site.first, site.second, str(site.room / "site.sock")])
    old, sockets = site.workers(), site.listening()
    with concurrent.futures.ThreadPoolExecutor(1) as pool:
        asked = pool.submit(answer_of, site.first, "/slow")
        try:
            until("the slow request", began.exists)
            master, keeper = site.master(), site.keeper()
            site.serve.kill()
            site.kill(master)
            site.serve.wait()
            # A start that fails takes nothing away.
            failed = site.started("--metrics", site.first)
            site.check("a start whose port is taken doesn't end with 1", failed.wait(SECONDS) == 1)
            site.serve = site.started()
            until("other workers beside the one that is asked", lambda: len(site.workers() - old) == 2)
            until("another keeper alone", lambda: site.keeper() not in (None, keeper))
        finally:
            site.hold.unlink()
        site.check("the slow request isn't answered", asked.result(SECONDS).startswith("version 1 "))
    until("no old worker", lambda: site.has_others(old))
    site.check(f"other sockets: {sockets}, {site.listening()}", site.listening() == sockets)
    site.wants("HUP", 0, "done", 2)
    site.end("1")
    site.certify()


def another_keeper(site: Site, old: int | None) -> None:
    until("another keeper", lambda: site.keeper() not in (None, old))


def a_keeper_is_killed(site: Site) -> None:
    """The keeper killed, and then a worker, and the keeper again: another one has the same sockets. An address that it
    did not open is closed, too, once it is dropped."""
    site.begin(listeners=[site.first, site.second])
    old = site.keeper()
    site.kill(old)
    victim = min(site.workers())
    os.kill(victim, signal.SIGKILL)
    until("another worker", lambda: site.has_others({victim}))
    another_keeper(site, old)
    old = site.keeper()
    site.kill(old)
    site.go_over_to()
    site.wants("HUP", 0, "done", 2)
    until("the dropped address is refused", lambda: is_refused(site.second))
    site.end("1", may_fail=CLIENTS)
    site.certify()


def a_keeper_hangs(site: Site) -> None:
    """A keeper that is stopped, and then a worker is killed: the keeper is replaced, and the worker too."""
    site.begin()
    old = site.keeper()
    os.kill(old or 0, signal.SIGSTOP)
    victim = min(site.workers())
    os.kill(victim, signal.SIGKILL)
    another_keeper(site, old)
    until("another worker", lambda: site.has_others({victim}))
    site.wants("HUP", 0, "done", 2)
    site.end("1", may_fail=CLIENTS)
    site.certify()


def a_serve_is_killed_whose_sockets_are_stored(site: Site) -> None:
    """`serve` killed, and started again by systemd, which has the sockets: no connection is refused meanwhile. They are
    those of the next start, which closes one that its configuration does not have."""
    path = site.room / "unix.sock"
    systemd = Systemd(site.room / "notify")
    try:
        site.environment["NOTIFY_SOCKET"] = str(systemd.path)
        site.begin(listeners=[site.first, str(path)])
        until("the sockets are stored", lambda: len(systemd.stored) == 2)
        site.serve.kill()
        site.serve.wait()
        site.before, site.given = systemd.start()
        site.serve = site.started()
        until("the pid file of serve", lambda: (site.run / "serve.pid").read_text() == f"{site.serve.pid}\n")
        site.check("the Unix socket doesn't serve", unix_answer(path).startswith("HTTP/1.1 200 "))
        # (workers of the one before serve on, while this one does not hear words yet)
        until("words are heard", (site.run / "ctl.sock").exists)
        site.go_over_to()
        site.wants("HUP", 0, "done", 2)
        until("one socket is stored", lambda: len(systemd.stored) == 1)
        site.end("1")
        until("systemd is told of the end", lambda: "STOPPING=1" in systemd.said)
        site.certify()
    finally:
        systemd.close()


def unix_answer(path: pathlib.Path) -> str:
    with socket.socket(socket.AF_UNIX) as client:
        client.settimeout(SECONDS)
        client.connect(str(path))
        client.sendall(b"GET / HTTP/1.1\r\nHost: test\r\nConnection: close\r\n\r\n")
        return client.recv(200).decode()


# Clients that say nothing, at each socket of a service that may have fewer descriptors.
SILENT, DESCRIPTORS = 300, 256


def silent_clients(site: Site) -> None:
    """Clients that connect to the keeper and to `serve` and say nothing, more than there are descriptors: words and
    workers get through, with these clients there and after them."""
    site.before = descriptors(DESCRIPTORS)
    site.begin()
    with contextlib.ExitStack() as clients:
        for name, kind in (("ctl.sock", socket.SOCK_STREAM), ("keeper.sock", socket.SOCK_SEQPACKET)):
            for _ in range(SILENT):
                client = clients.enter_context(socket.socket(socket.AF_UNIX, kind))
                client.connect(str(site.run / name))
        site.wants("HUP", 0, "done", 2)
        victim = min(site.workers())
        os.kill(victim, signal.SIGKILL)
        until("another worker", lambda: site.has_others({victim}))
    site.wants("HUP", 0, "done", 2)
    site.end("1", may_fail=CLIENTS)
    site.certify()


def too_few_descriptors(site: Site) -> None:
    """Configurations that the limits do not allow to be reloaded are refused at the start, by name."""
    four: dict[str, Any] = {"listeners": [f"127.0.0.1:{port}" for port in range(1, 5)], "workers": 200}
    many: dict[str, Any] = {"workers": 300}
    for settings, limit, named in ((four, 1024, "1684 descriptors in its keeper"), (many, 1024, "1224 descriptors in its master")):
        site.configure(**settings)
        site.before = descriptors(limit)
        site.serve = site.started()
        site.check(f"it serves with {settings}", site.serve.wait(SECONDS) == 1)
        said = (site.room / "said").read_text()
        site.check(f"the refusal doesn't say {named}: {said}", f"a reload needs {named}, and {limit} are allowed" in said)
        site.nothing_left()


SCENARIOS: tuple[Scenario, ...] = (
    a_worker_is_killed, a_worker_owes_an_answer, a_master_is_killed, a_master_is_killed_beside_a_stopped_worker,
    a_reigning_master_is_killed, a_serve_is_killed, both_are_killed, a_keeper_is_killed, a_keeper_hangs, a_serve_is_killed_whose_sockets_are_stored,
    silent_clients, too_few_descriptors,
)

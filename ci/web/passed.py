"""Limits that a worker passes under load: memory, by which it is killed, and the time of a request, after which it ends once the
others are answered. Another one is started, and the journal, the status and the metrics say why."""
import socket
import time
from typing import Any

from gate.addresses import place_of
from gate.waiting import comes, until
from web.file_kinds import PYTHON
from web.site import CLIENTS, Scenario, Site
from web.starts import status

# More than a worker of the double has, and what its slow page takes.
LIMIT, TAKEN = "150M", 300
# An application whose page takes for ever; another one is as long as a while.
HANGS = """import os, time
VERSION = "1"
def app(environ, start_response):
    if environ["PATH_INFO"] == "/stuck":
        time.sleep(3600)
    if environ["PATH_INFO"] == "/long":
        time.sleep(3)
    text = f"version {VERSION} process {os.getpid()}\\n".encode()
    start_response("200 OK", [("Content-Type", "text/plain"), ("Content-Length", str(len(text)))])
    return [text]
"""


def ask(site: Site, path: str) -> socket.socket:
    """A request whose answer nobody reads yet."""
    client = socket.create_connection(place_of(site.first), 60)
    client.sendall(f"GET {path} HTTP/1.1\r\nHost: {site.first}\r\nConnection: close\r\n\r\n".encode())
    return client


def is_one_other(site: Site, old: set[int]) -> bool:
    now = site.workers()
    return len(now) == 2 and len(now & old) == 1


def counts(site: Site, limit: str, count: int) -> None:
    """The status counts the workers that have passed a limit. (It is told of the end of one with the next block.)"""
    site.check(f"{limit} was not passed {count} times: {status(site)['limits_passed']}", comes(lambda: status(site)["limits_passed"][limit] == count))


def passed_hard_memory(site: Site) -> None:
    """It is killed, and nothing is lost but in it. The limit is of the configuration that runs: a reload takes it up, for its
    own workers."""
    site.app_text = site.app_text.replace("time.sleep(3)", f"globals().setdefault('TAKEN', []).append(b'x' * ({TAKEN} << 20))")
    site.install(site.app_text)
    site.begin()
    old = site.workers()
    with ask(site, "/slow") as client:
        site.check("a worker without a limit is ended", client.recv(100))
    time.sleep(2)
    site.check("a worker without a limit is killed", site.workers() == old)
    for count in (1, 2):
        site.configure(service={"hard_memory": LIMIT})
        site.wants("HUP", 0, "done", 2)
        old = site.workers()
        ask(site, "/slow").close()
        until("another worker", lambda: is_one_other(site, old))
        until("the journal has the reason", lambda: (site.run / "journal").read_text().count(f", and {LIMIT} is allowed. It is killed") == count)
        counts(site, "hard_memory", count)
    site.end("1", may_fail=2 * CLIENTS)


def passed_request_timeout(site: Site) -> None:
    """Its worker accepts no more, answers the others, and ends: no request of others is lost, those that take a while too."""
    (site.home / "app.py").write_text(HANGS)
    site.is_in_file, site.is_forked = True, True
    table: dict[str, Any] = {"wsgi": "app:app", "folder": str(site.home), "python": PYTHON, "request_timeout": 6, "finish": 40}
    site.begin(service=table)
    for count in (1, 2):
        old = site.workers()
        with ask(site, "/stuck?key=secret"):
            time.sleep(4)
            others = [ask(site, "/long") for _ in range(4)]
            for client in others:
                site.check("a request beside it is lost", b"version 1 " in client.makefile("rb").read())
                client.close()
            until("another worker", lambda: is_one_other(site, old))
        until("the journal has the reason", lambda: (site.run / "journal").read_text().count(": GET /stuck\n") == count)
        counts(site, "request_timeout", count)
        site.wants("HUP", 0, "done", 2)
    site.check("the journal has what follows the path", "secret" not in (site.run / "journal").read_text())
    site.end("1")


SCENARIOS: tuple[Scenario, ...] = (passed_hard_memory, *((passed_request_timeout,) if PYTHON else ()))

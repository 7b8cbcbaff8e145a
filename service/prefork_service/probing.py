"""Requests to a WSGI application in its own process, before it serves."""
import io
import sys
import time
import traceback
from collections.abc import Callable
from typing import Any

from .holding import Unfit

# How often a probe is repeated that is answered with a fault of the server, and the pause before that.
TRIES, PROBE_PAUSE_SECONDS = 3, 0.2


def status_of(application: Callable[..., Any], path: str, is_secure: bool = False) -> str:
    """The status of an answer, such as `200 OK`. What the application loads for it is there from then on. A secure request
    looks as if it came from a proxy that ends TLS."""
    environ: dict[str, Any] = {
        "REQUEST_METHOD": "GET", "SCRIPT_NAME": "", "PATH_INFO": path.partition("?")[0], "QUERY_STRING": path.partition("?")[2],
        "SERVER_NAME": "localhost", "SERVER_PORT": "80", "SERVER_PROTOCOL": "HTTP/1.1", "HTTP_HOST": "localhost",
        "REMOTE_ADDR": "127.0.0.1", "wsgi.version": (1, 0), "wsgi.url_scheme": "http", "wsgi.input": io.BytesIO(),
        "wsgi.errors": sys.stderr, "wsgi.multithread": True, "wsgi.multiprocess": True, "wsgi.run_once": False,
    }
    if is_secure:
        environ |= {"wsgi.url_scheme": "https", "SERVER_PORT": "443", "HTTP_X_FORWARDED_PROTO": "https"}
    answered: list[str] = []
    found = application(environ, lambda status, headers, fault=None: answered.append(status))
    try:
        for _ in found:
            pass
    finally:
        if hasattr(found, "close"):
            found.close()
    return answered[-1] if answered else "nothing"


def warm(application: Callable[..., Any], path: str, is_secure: bool = False) -> None:
    """Asks for a page that is to be there."""
    status = status_of(application, path, is_secure)
    if status[:1] not in "23":
        raise Unfit(f"{path} is answered: {status}")


def probe(application: Callable[..., Any], path: str, is_secure: bool = False) -> None:
    """Asks for a page until it is answered with a status below 500, three times at most."""
    for number in range(TRIES):
        time.sleep(PROBE_PAUSE_SECONDS if number else 0)
        try:
            status = status_of(application, path, is_secure)
        except Exception as fault:
            traceback.print_exc()
            status = f"{type(fault).__name__}: {fault}"
        if status[:1] in "1234" and status[1:3].isdigit():
            return
    raise Unfit(f"{path} is answered {TRIES} times: {status}")

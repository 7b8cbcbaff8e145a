"""What a preloader does before it loads an application: it serves a page of its own.

Python rewrites code when it runs for the first times, and makes some things when they are used first. What a worker writes
after the fork is memory of its own, of each worker. So the preloader serves some requests as its workers will, at a socket that
nobody else knows, and ends all that it has started for that.
"""
import logging
import socket
import threading
from collections.abc import Callable, Iterable

from .traffic import Counter
from .wsgi_server import Requests, Server

# How many requests: Python rewrites what has run some ten times. How long one may take.
PRACTICE_REQUESTS, PRACTICE_SECONDS = 20, 5.0
REQUEST = b"GET / HTTP/1.1\r\nHost: localhost\r\nUser-Agent: practice\r\nAccept: */*\r\nConnection: close\r\n\r\n"


def page(_: dict[str, object], start: Callable[..., object]) -> Iterable[bytes]:
    start("200 OK", [("Content-Type", "text/plain"), ("Content-Length", "3")])
    return [b"ok\n"]


def practise(threads: int) -> int:
    """Serves some requests; how many. Raises OSError."""
    # (it warns where two requests wait, and nobody does)
    logging.getLogger("waitress.queue").setLevel(logging.ERROR)
    with socket.socket(socket.AF_UNIX) as listener:
        # (the system gives it a name that is no file)
        listener.bind("")
        listener.listen()
        before, requests = threading.enumerate(), Requests(Counter(threads, None, None), None, "")
        server = Server(page, {"": listener}, threads, 1, requests)
        threading.Thread(target=ask, args=(listener.getsockname(), server)).start()
        server.run(0.0, PRACTICE_SECONDS)
        server.end()
        for one in threading.enumerate():
            if one not in before:
                one.join(PRACTICE_SECONDS)
    return sum(requests.counter.counts.classes)


def ask(address: bytes, server: Server) -> None:
    """Asks for pages, one after another, and has the server finish."""
    try:
        for _ in range(PRACTICE_REQUESTS):
            with socket.socket(socket.AF_UNIX) as client:
                client.settimeout(PRACTICE_SECONDS)
                client.connect(address)
                client.sendall(REQUEST)
                while client.recv(4096):
                    pass
    except OSError:
        # What is missing is made by each worker.
        pass
    finally:
        server.finish()

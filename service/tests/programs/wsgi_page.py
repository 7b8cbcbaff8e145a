"""A WSGI application for tests. Its paths show what a worker must cope with."""
import os
import pathlib
import subprocess
import sys
import time

# More than waitress keeps for a client that does not read.
PIECES, PIECE = 40, 1_000_000


def application(environ, start_response):
    path, text = environ["PATH_INFO"], f"version {os.environ.get('VERSION', '1')} process {os.getpid()}\n"
    if path == "/slow":
        time.sleep(1)
    if path == "/held":
        hold(pathlib.Path(os.environ["HELD"]))
    if path == "/big":
        start_response("200 OK", [("Content-Length", str(PIECES * PIECE))])
        return (b"x" * PIECE for _ in range(PIECES))
    if path == "/raise":
        raise ValueError("a page that fails")
    if path == "/pieces":
        start_response("200 OK", [("Content-Type", "text/plain")])
        return iter([b"one", b"two", b"six"])
    if path == "/stuck":
        time.sleep(3600)
    if path == "/print":
        print("pong", flush=True)
        subprocess.run(["sh", "-c", "echo pong; cat"], check=True)
    if path.startswith("/clock/"):
        set_clock(float(path.removeprefix("/clock/")))
    if path == "/hurry":
        sys.modules["prefork_service.wsgi_server"].SILENT_CLIENT_SECONDS = 1.0
    if path == "/fork":
        fork_a_printer()
    if path == "/environment":
        text = " ".join(sorted(os.environ)) + "\n"
    if path == "/size":
        text = f"{len(environ['wsgi.input'].read())}\n"
    start_response("200 OK", [("Content-Type", "text/plain"), ("Content-Length", str(len(text)))])
    return [text.encode()]


def set_clock(seconds: float) -> None:
    """Sets the clock on the wall of this process alone: so much ahead."""
    time.time = lambda: time.clock_gettime(time.CLOCK_REALTIME) + seconds


def hold(file: pathlib.Path) -> None:
    """Makes a file, and waits while it is there."""
    file.touch()
    while file.exists():
        time.sleep(0.02)


def fork_a_printer() -> None:
    """A process that only forks has the numbers of the pipes, if anybody has left them open."""
    pid = os.fork()
    if pid == 0:
        for number in range(3, 64):
            try:
                os.write(number, b"pong\n")
            except OSError:
                pass
        os._exit(0)
    os.waitpid(pid, 0)


print("pong", flush=True)
sys.stdin.read()

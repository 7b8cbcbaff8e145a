"""strace beside a process of a service: it lists the calls, or lets one of them fail."""
import collections
import pathlib
import re
import shutil
import signal
import subprocess
import sys
import time
from typing import Any, NamedTuple

from gate.waiting import SECONDS, Wrong

STRACE = shutil.which("strace")
# A call at its beginning, after the number of its process where several are followed.
CALL = re.compile(r"(?:(\d+) +)?(\w+)\((.*)")
INJECTED = "(INJECTED)"
# What differs from run to run in the arguments of a call.
VARIES = re.compile(r"0x[0-9a-f]+|\d+|\.\.\.")
# At how many places each error of a call is injected at most: its first ones, and the first with other arguments.
FIRST, MOST_PLACES = 2, 8
WRITES = "import sys; sys.stdin.buffer.read(1); sys.stdout.buffer.write(b'x'); sys.stdout.flush()"


class Fault(NamedTuple):
    """An error of the N-th call of a kind."""

    call: str
    error: str
    place: int

    def options(self) -> list[str]:
        return ["-e", f"trace={self.call}", "-e", f"inject={self.call}:error={self.error}:when={self.place}"]

    def __str__(self) -> str:
        return f"{self.call} {self.place} {self.error}"


# What lists all calls.
LISTS = ["-e", "trace=all"]


def why_not() -> str:
    """Why no fault can be injected on this machine; nothing if that is possible."""
    if not STRACE:
        return "strace is missing"
    pipes: dict[str, Any] = {"stdin": subprocess.PIPE, "stdout": subprocess.DEVNULL, "stderr": subprocess.DEVNULL}
    with subprocess.Popen([sys.executable, "-S", "-c", WRITES], **pipes) as victim:
        try:
            tracer = Tracer(victim.pid, Fault("write", "EIO", 1).options(), pathlib.Path("/dev/null"))
        except Wrong as fault:
            victim.kill()
            return f"strace can't trace a process here: {fault}"
        victim.communicate(b"x")
        tracer.end()
    return "" if victim.returncode else "strace injects no errors here"


class Tracer:
    """strace, attached to a process."""

    def __init__(self, process: int, options: list[str], log: pathlib.Path):
        command = [STRACE or "strace", "-s", "80", "-o", str(log), *options, "-p", str(process)]
        self.strace = subprocess.Popen(command, stderr=subprocess.PIPE, text=True, errors="replace")
        assert self.strace.stderr
        said = self.strace.stderr.readline()
        if "attached" not in said:
            self.strace.kill()
            self.strace.communicate()
            raise Wrong(f"strace -p {process}: {said.strip()}")

    def end(self) -> None:
        """Lets go of the process, if that runs still."""
        if self.strace.poll() is None:
            self.strace.send_signal(signal.SIGTERM)
        try:
            self.strace.communicate(timeout=SECONDS)
        except subprocess.TimeoutExpired:
            self.strace.kill()
            self.strace.communicate()


class Calls:
    """Which calls a listing has, how often, and at which places each is injected."""

    def __init__(self, text: str):
        self.places: dict[str, list[int]] = {}
        counts: dict[tuple[str, str], int] = collections.defaultdict(int)
        seen: set[tuple[str, str]] = set()
        for line in text.splitlines():
            found = CALL.match(line)
            if not found:
                continue
            process, call, given = found[1] or "", found[2], VARIES.sub("#", found[3].partition(" = ")[0])
            counts[process, call] += 1
            place, places = counts[process, call], self.places.setdefault(call, [])
            is_first = place <= FIRST or (call, given) not in seen
            seen.add((call, given))
            if is_first and place not in places and len(places) < MOST_PLACES:
                places.append(place)


def text_of(log: pathlib.Path) -> str:
    try:
        return log.read_text(errors="replace")
    except OSError:
        return ""


def injected_in(log: pathlib.Path) -> str:
    """The line of the call that failed; nothing if it was not reached."""
    return next((line for line in text_of(log).splitlines() if INJECTED in line), "")


def waits_for_line(log: pathlib.Path, seconds: float) -> None:
    """Waits until something was injected, for a while."""
    deadline = time.monotonic() + seconds
    while not injected_in(log) and time.monotonic() < deadline:
        time.sleep(0.05)

"""Workers that no longer answer their master: at each line that owes an answer, and before they are ready."""
from gate.waiting import SECONDS, until
from web.site import CLIENTS, Scenario, Site, text_of
from web.starts import status

# Goes into the application: its workers stop at a line, before they obey it.
STOPS = """
import signal
def stops_at(word):
    def obey(self, line, obeys=worker.Worker.obey):
        if line.split()[0] == word:
            os.kill(os.getpid(), signal.SIGSTOP)
        return obeys(self, line)
    worker.Worker.obey = obey
"""


def stopping(site: Site, number: int, word: str) -> str:
    """The text of a version whose workers stop at a line."""
    more = f'{STOPS}if sys.argv[1:] == ["child"]:\n    stops_at({word!r})\n'
    return site.app_text.replace('VERSION = "1"', f'VERSION = "{number}"{more}')


def is_stopped(process: int) -> bool:
    try:
        with open(f"/proc/{process}/stat") as file:
            return file.read().rpartition(")")[2].split()[0] == "T"
    except OSError:
        return False


def leaves(site: Site, text: str) -> int:
    """HUP from workers that stop to another version: it is done. How many of them are stopped then; the service kills
    them in time."""
    site.install(text)
    block, faults = site.sent("HUP").communicate(timeout=SECONDS)
    site.check(f"HUP from workers that stop: {block}{faults}", "\ndone " in block)
    new = {worker["process"] for worker in status(site)["workers"]}
    until("the old workers stop or end", lambda: all(map(is_stopped, site.workers() - new)))
    stopped = site.workers() - new
    until("the stopped ones are killed", lambda: not stopped & site.workers())
    site.check_workers("HUP", 2)
    return len(stopped)


def workers_stop_at_each_line(site: Site) -> None:
    """Versions whose workers stop at `ping`, at `tick` and at `quit`. At the first HUP is rolled back, at the second the
    next tick starts others, and at the third nobody waits for them: they are killed in time. Each word ends with its
    status."""
    site.options = ["--answer-within", "8", "--ready-within", "20"]
    site.begin()
    old = site.workers()
    site.install(stopping(site, 2, "ping"))
    site.wants("HUP", 3, "rolled-back", 2)
    site.check("the old workers are not those from before", site.workers() == old)
    site.install(stopping(site, 3, "tick"))
    site.wants("HUP", 0, "done", 2)
    old = site.workers()
    until("two other workers", lambda: site.has_others(old))
    leaves(site, stopping(site, 4, "quit"))
    stopped = leaves(site, site.version(5))
    site.check(f"{stopped} workers were stopped at quit", stopped == 2)
    said = text_of(site.room / "said").count(" has not ended within 20 s, and is killed\n")
    site.check(f"{said} workers are said to be killed", said >= 2)
    site.answered_by(5)
    # Two workers at a time are lost, each with at most one request of a client. Those that stop at `ping` are told it once
    # they are ready, so they may answer no request.
    site.end("1345", may_fail=8 * CLIENTS, perhaps="2")
    site.certify()


def a_version_is_never_ready(site: Site) -> None:
    """A version whose workers wait for ever, and one whose workers stop at `go`: HUP and USR2 are rolled back once their
    masters end them, and no request notices."""
    site.options = ["--ready-within", "10"]
    site.begin()
    old = site.workers()
    site.hold.touch()
    for text in (site.version(2, waits=str(site.hold)), stopping(site, 2, "go")):
        site.install(text)
        for word in ("HUP", "USR2"):
            site.wants(word, 3, "rolled-back", 2)
            site.check(f"the old workers are not those from before {word}", site.workers() == old)
    site.install(site.app_text)
    site.wants("HUP", 0, "done", 2)
    site.end("1")
    site.certify()


SCENARIOS: tuple[Scenario, ...] = (workers_stop_at_each_line, a_version_is_never_ready)

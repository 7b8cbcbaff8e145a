"""What is written: records on a disk that is full, parts of records, and what the operator is told of failures."""
import pathlib
import subprocess
from typing import Any

from gate.waiting import SECONDS, until
from web.site import BIN, BROKEN, Scenario, Site, text_of
from web.starts import status

# A disk of its own for a service, in a name space of its own; it is full before the service starts.
DISK = 'mount -t tmpfs -o size=256k none "$0" && { head -c 1000000 /dev/zero >"$0/fill" 2>/dev/null; exec "$@"; }'
APART = ["unshare", "--user", "--map-root-user", "--mount"]


def can_mount(room: pathlib.Path) -> bool:
    command = [*APART, "sh", "-c", 'mount -t tmpfs -o size=64k none "$0"', str(room)]
    return subprocess.run(command, stdin=subprocess.DEVNULL, capture_output=True).returncode == 0


def told(site: Site, what: str) -> int:
    """How often `serve` has said that something can't be written."""
    return text_of(site.room / "said").count(f"{what} can't be written, and is tried again: No space left on device")


def a_full_disk(site: Site) -> None:
    """A disk for records that is full at the start, has room later, and is full again: words are done all the while,
    each time it is said once, and what waited is written. A full disk for the folder is a start with status 1."""
    disk = site.room / "disk"
    disk.mkdir()
    if can_mount(disk):
        on_a_small_disk(site, disk)
    else:
        print("a_full_disk: no disk of its own can be mounted here; left out")
        site.begin()
        site.end("1")
    site.is_recorded, site.options = True, ()
    site.before = ["sh", "-c", 'ulimit -f 0 && exec "$@"', "sh"]
    site.serve = site.started()
    site.check("it serves without a folder that can be written", site.serve.wait(SECONDS) == 1)


def on_a_small_disk(site: Site, disk: pathlib.Path) -> None:
    site.before, site.options = [*APART, "sh", "-c", DISK, str(disk)], ["--records", str(disk)]
    site.is_recorded = False
    site.begin()
    inside = pathlib.Path(f"/proc/{site.serve.pid}/root{disk}")
    blocks = inside / "records" / "1" / "blocks.1"
    site.wants("TTIN", 0, "done", 3)
    site.wants("HUP", 0, "done", 2)
    until("the full disk is said", lambda: told(site, "the record of blocks") and told(site, "the journal"))
    site.check("a block was written", not blocks.exists())
    site.check("nothing waits", status(site)["records_waiting"] > 0)
    (inside / "fill").unlink()
    until("what waited is written", lambda: "word HUP\n" in text_of(blocks) and not status(site)["records_waiting"])
    fill(inside / "fill")
    before = blocks.read_text()
    site.wants("TTIN", 0, "done", 3)
    site.wants("TTOU", 0, "done", 2)
    for what in ("the record of blocks", "the journal"):
        site.check(f"{what}: said {told(site, what)} times", told(site, what) <= 2)
    (inside / "fill").unlink()
    until("what waited is written", lambda: "word TTOU\n" in text_of(blocks))
    site.check("a block was lost or doubled", blocks.read_text().startswith(before))
    until("the journal has the word", lambda: "TTOU: done" in text_of(inside / "journal"))
    site.certify(text_of(blocks))
    site.end("1")


def fill(file: pathlib.Path) -> None:
    """Takes all that is left of a disk."""
    with open(file, "wb", 0) as filling:
        try:
            while filling.write(b"x" * 4096):
                pass
        except OSError:
            pass


def parts_of_records(site: Site) -> None:
    """Records of several parts and several masters: `prefork-ctl certify` joins them and accepts them, while the service
    runs and after its end, and finds a block that was changed."""
    site.begin()
    part = site.run / "records" / "1"
    for _ in range(3):
        site.wants("TTIN", 0, "done", 3)
        site.wants("HUP", 0, "done", 2)
    site.check("quiet ticks are written", site.blocks().count("word tick ") == 1)
    old = site.workers()
    site.kill(site.master())
    until("two other workers", lambda: site.has_others(old))
    site.wants("HUP", 0, "done", 2)
    said, faults, ended = certified(site)
    site.check(f"certify: {ended} {said} {faults}", ended == 0 and said.count("blocks are accepted, from the first on") == 2)
    site.end("1")
    text = (part / "blocks.1").read_text()
    cut = text.index("word HUP\n")
    (part / "blocks.1").write_text(text[:cut])
    (part / "blocks.2").write_text(text[cut:])
    said, faults, ended = certified(site)
    site.check(f"certify of parts: {ended} {said} {faults}", ended == 0 and said.count("are accepted") == 2)
    (part / "blocks.2").write_text(text[cut:].replace(": ready", ": gone", 1))
    said, faults, ended = certified(site)
    site.check(f"a changed block: {ended} {said}", ended == 5 and "word HUP, is not accepted: Y1" in said)


def certified(site: Site) -> tuple[str, str, int]:
    command: list[Any] = [BIN / "prefork-ctl", "--folder", site.run, "--prefork", site.certifier, "certify"]
    found = subprocess.run(command, capture_output=True, text=True, env=site.environment, timeout=SECONDS)
    return found.stdout, found.stderr, found.returncode


def reasons(site: Site) -> None:
    """What an operator is told of a reload that is rolled back: which call, why, and what runs now; in the journal too.
    The command of workers is missing, may not be executed, or ends by itself, and a new master can't be started."""
    site.begin()
    missing, closed = site.room / "missing", site.room / "closed"
    closed.write_text(BROKEN)
    for program, why in ((missing, "No such file or directory"), (closed, "Permission denied")):
        site.configure(command=[str(program), "child"])
        told_of(site, "HUP", f"{program}: {why}")
    site.configure()
    pathlib.Path(site.prefork).unlink()
    pathlib.Path(site.prefork).write_text("no program")
    told_of(site, "USR2", f"{site.prefork}: Permission denied")
    site.replace_master()
    site.wants("HUP", 0, "done", 2)
    site.end("1")


def told_of(site: Site, word: str, why: str) -> None:
    sent = site.sent(word)
    block, notes = sent.communicate(timeout=SECONDS)
    site.check(f"{word}: {sent.returncode} {block}", sent.returncode == 3)
    wanted = [line for line in notes.splitlines() if line.endswith(why) and line.split(": ")[1] in block]
    site.check(f"{word}: the reason is not said: {why}: {notes}", wanted)
    runs = f"runs now: 2 workers of generation 1.1 at {site.first}"
    site.check(f"{word}: what runs is not said: {notes}", runs in notes)
    site.check(f"{word}: the journal lacks the reason {why}", f"{word}: " in journal_line(site, why))


def journal_line(site: Site, why: str) -> str:
    return next((line for line in text_of(site.run / "journal").splitlines() if line.endswith(why)), "")


SCENARIOS: tuple[Scenario, ...] = (a_full_disk, parts_of_records, reasons)

"""The service from outside: its start, its folder, signals and words to it."""
import json
import os
import signal
import socket
import subprocess
from typing import Any

from gate.addresses import is_refused
from gate.waiting import SECONDS, until
from web.site import BIN, Scenario, Site, text_of
from web.systemd import Systemd


def signals_are_words(site: Site) -> None:
    """TTIN, USR1, HUP and TTOU sent to `serve` by its pid file, and words of many `ctl` at a time, each with its own
    block."""
    systemd = Systemd(site.room / "notify")
    site.environment["NOTIFY_SOCKET"] = str(systemd.path)
    try:
        site.begin()
        until("systemd is told", lambda: "READY=1" in systemd.said)
    finally:
        systemd.close()
    number = int((site.run / "serve.pid").read_text())
    for name, wanted in (("TTIN", 3), ("HUP", 2)):
        os.kill(number, signal.Signals[f"SIG{name}"])
        until(f"the block of {name}", lambda: f"\nword {name}\n" in site.blocks())
        site.check_workers(name, wanted)
    words = ["USR1", "TTIN", "HUP", "TTOU", "USR1", "TTIN", "HUP", "USR1"]
    for word, sent in [(word, site.sent(word)) for word in words]:
        block, faults = sent.communicate(timeout=SECONDS)
        is_own = sent.returncode == 0 and block.startswith(f"word {word}\n") and block.count("word ") == 1
        site.check(f"{word}, beside others: {sent.returncode}, {block}{faults}", is_own)
    sent = site.sent("HUPP")
    said, notes = sent.communicate(timeout=SECONDS)
    site.check("a line that is no control word", "unread W1" in said and sent.returncode == 2)
    site.check(f"the words are not named: {notes}", notes.startswith("prefork-ctl: HUPP is not a word. Words are HUP, "))
    site.end("1")
    site.certify()


def nobody_else(site: Site) -> None:
    """Folder, sockets and blocks are the user's alone. A second `serve` there is refused, and changes nothing."""
    site.begin()
    files = ((site.run / name, 0o600) for name in ("ctl.sock", "keeper.sock", "blocks"))
    for path, wanted in ((site.run, 0o700), *files):
        site.check(f"{path} can be opened by others", path.stat().st_mode & 0o777 == wanted)
    before = {file.name: file.stat().st_ino for file in site.run.iterdir()}
    second = site.started()
    site.check("a second serve isn't refused", second.wait(SECONDS) == 1)
    named = f"is served already, by process {site.serve.pid}"
    site.check("the refusal doesn't name the first", named in (site.room / "said").read_text())
    after = {file.name: file.stat().st_ino for file in site.run.iterdir()}
    site.check(f"a second serve changed files: {before}, {after}", before == after)
    site.wants("HUP", 0, "done", 2)
    site.end("1")
    site.certify()
    site.run.chmod(0o755)
    site.check("a folder that others can open is taken", site.started().wait(SECONDS) == 1)


def a_bad_start(site: Site) -> None:
    """A start that cannot be ends with status 1, says in one place what is wrong and where, and leaves nothing."""
    refused(site, "site.toml: No such file or directory\n")
    site.configure(command=[])
    refused(site, "prefork-serve: site.toml, line 3: command = []: ")
    site.config.write_text(f'# A line more.\nlisteners = ["{site.first}"]\ncommand = ["/bin/true"]\nworkrs = 1\n')
    refused(site, "prefork-serve: site.toml, line 4: workrs = 1: unknown key: workrs (the nearest known key is workers)\n")
    file = site.room / "file"
    file.write_text("no program")
    for program, why in ((str(site.room / "missing"), "No such file or directory\n"), (str(file), "Permission denied\n")):
        site.configure(command=[program, "child"])
        refused(site, f"{program}: {why}")
    site.program = ["no-such-program"]
    site.configure()
    refused(site, "PROGRAM: no-such-program: it is in no folder of PATH\n")
    site.program = []
    site.configure()
    site.options = ["--folder", str(file)]
    refused(site, f"{file} is a file, and --folder takes a folder\n")
    site.options = ()
    for program, why in (
        (str(site.room / "missing"), "No such file or directory\n"), (str(file), "Permission denied\n"),
    ):
        site.prefork = program
        refused(site, f"--prefork: {program}: {why}")
    site.prefork = "/bin/true"
    refused(site, "/bin/true does not start as the master: it has ended with status 0")


def refused(site: Site, why: str) -> None:
    """A start that ends with this message."""
    before = len(text_of(site.room / "said"))
    site.serve = site.started()
    site.check(f"it serves, and not: {why}", site.serve.wait(SECONDS) == 1)
    said = text_of(site.room / "said")[before:]
    site.check(f"{why!r} is not said: {said}", why in said)
    site.check(f"a copy of the file is named: {said}", "config.toml" not in said)
    site.nothing_left()


def an_address_in_use(site: Site) -> None:
    """A start whose address another program has ends with status 1 and the reason, and leaves nothing."""
    host, _, port = site.second.rpartition(":")
    with socket.socket() as other:
        other.bind((host, int(port)))
        other.listen()
        site.configure(listeners=[site.first, site.second])
        site.serve = site.started()
        site.check("it serves without an address", site.serve.wait(SECONDS) == 1)
    said = text_of(site.room / "said")
    site.check(f"the reason isn't said: {said}", f"{site.second}: Address already in use" in said)
    site.check("the other address is open", is_refused(site.first))
    site.nothing_left()


def a_pid_of_the_master(site: Site) -> None:
    """A configuration that would write the number of a process that handles no signals is refused, with the reason, at a
    start and at HUP. The number in serve.pid takes HUP before and after an upgrade."""
    pid = str(site.room / "master.pid")
    site.configure(pid=pid)
    site.serve = site.started()
    site.check("it serves with a pid of the master", site.serve.wait(SECONDS) == 1)
    site.check("the reason isn't said", "serve.pid" in text_of(site.room / "said"))
    site.nothing_left()
    site.begin()
    site.configure(pid=pid)
    block, said = site.sent("HUP").communicate(timeout=SECONDS)
    site.check(f"HUP: {block}{said}", block == "word HUP\nrefused pid\n" and "serve.pid" in said)
    site.configure()
    number = int((site.run / "serve.pid").read_text())
    for count in (1, 2):
        os.kill(number, signal.SIGHUP)
        until("the block of HUP", lambda: site.blocks().count("\nword HUP\n") == count)
        site.check_workers("HUP", 2)
        if count == 1:
            site.wants("USR2", 0, "done", 2)
    site.check("the number has changed", int((site.run / "serve.pid").read_text()) == number)
    site.end("1")


def a_status(site: Site) -> None:
    """The status agrees with the processes and with the words, before and after an upgrade, while a word is carried out,
    and after a worker, the keeper and the master were killed."""
    site.begin()
    agrees(site, "1.1", None, 1)
    site.wants("USR2", 0, "done", 2)
    agrees(site, "2.2", "USR2", 2)
    said, _ = site.sent("status").communicate(timeout=SECONDS)
    site.check(f"the old master isn't named: {said}", f"old master  process {site.master()}: " in said)
    begun = begins_and_waits(site, 2)
    site.check("it isn't said what is carried out", status(site)["doing"] == "HUP")
    site.hold.unlink()
    site.check("the HUP was not done", "\ndone " in answer_to(begun))
    site.check_workers("HUP", 2)
    agrees(site, "2.3", "HUP", 2)
    old = site.keeper()
    site.kill(old)
    until("another keeper", lambda: site.keeper() not in (None, old))
    agrees(site, "2.3", "HUP", 2, keepers=1)
    old_workers = site.workers()
    site.kill(site.new_master())
    until("two other workers", lambda: site.has_others(old_workers))
    until("the block of the start", lambda: status(site)["workers"])
    agrees(site, "1.1", "HUP", 1, keepers=1, restarts=1)
    site.config.write_text("workers = 0\n")
    site.check("it isn't said that the file has changed", status(site)["file_has_changed"])
    site.end("12")


def status(site: Site) -> dict[str, Any]:
    command: list[Any] = [BIN / "prefork-ctl", "--folder", site.run, "--json", "status"]
    found = subprocess.run(command, capture_output=True, text=True, env=site.environment, timeout=SECONDS)
    return dict(json.loads(found.stdout))


def agrees(site: Site, generation: str, word: str | None, masters: int, keepers: int = 0, restarts: int = 0) -> None:
    """Compares a status with what runs. A worker's process is its own here: it has no adapter."""
    found = status(site)
    site.check(f"workers: {found}", {worker["process"] for worker in found["workers"]} == site.workers())
    site.check(f"generation: {found}", {worker["generation"] for worker in found["workers"]} == {generation})
    site.check(f"addresses: {found}", found["addresses"] == [site.first])
    reigning = site.new_master() if masters > 1 else site.master()
    site.check(f"masters: {found}", len(found["masters"]) == masters and found["masters"][-1] == reigning)
    site.check(f"keeper: {found}", found["keeper"] == {"process": site.keeper(), "restarts": keepers})
    site.check(f"restarts: {found}", found["master_restarts"] == restarts)
    site.check(f"last word: {found}", (found["last"] or {}).get("word") == word)
    site.check(f"the service: {found}", found["service"]["process"] == site.serve.pid)


def asks(site: Site, word: str) -> socket.socket:
    """A word on its way. Words that are sent so come in this order."""
    asker = socket.socket(socket.AF_UNIX)
    asker.settimeout(SECONDS)
    asker.connect(str(site.run / "ctl.sock"))
    asker.sendall(f"{word}\n".encode())
    return asker


def answer_to(asker: socket.socket) -> str:
    with asker, asker.makefile() as answer:
        return answer.read()


def begins_and_waits(site: Site, version: int) -> socket.socket:
    """A HUP whose new workers wait."""
    site.hold.touch()
    site.install(site.version(version, waits=str(site.hold)))
    begun = asks(site, "HUP")
    until("the HUP is on its way", lambda: "HUP is being carried out" in site.question())
    return begun


def words_that_wait(site: Site) -> None:
    """Twenty HUPs that wait are one, and each of them has its block; a HUP after another word is one of its own. A stop
    goes before what waits."""
    site.begin()
    begun = begins_and_waits(site, 2)
    waiting = [asks(site, "HUP") for _ in range(20)] + [asks(site, "TTIN"), asks(site, "HUP")]
    said = site.question()
    site.check(f"more or less words wait: {said}", "3 more words wait" in said)
    site.hold.unlink()
    wrong = [answer for asker in [begun, *waiting] if "\ndone " not in (answer := answer_to(asker))]
    site.check(f"words were not done: {wrong}", not wrong)
    site.check("the blocks are others", site.blocks().count("word HUP\n") == 3)
    site.check_workers("the last HUP", 2)
    site.check_load(site.end_load(), "12")
    begun = begins_and_waits(site, 3)
    waiting, stop = [asks(site, "TTIN"), asks(site, "HUP")], asks(site, "QUIT")
    said = site.question()
    site.check(f"more or less words wait: {said}", "3 more words wait" in said)
    site.hold.unlink()
    answers = [answer_to(asker) for asker in (begun, stop)]
    site.check(f"HUP and QUIT: {answers}", all("\ndone " in answer for answer in answers))
    lost = {answer_to(asker) for asker in waiting}
    site.check(f"what waited: {lost}", lost == {"lost: the service has stopped\n"})
    site.check("serve ends with another status", site.serve.wait(SECONDS) == 0)
    site.nothing_left()
    site.certify()


SCENARIOS: tuple[Scenario, ...] = (
    signals_are_words, nobody_else, a_bad_start, an_address_in_use, a_pid_of_the_master, a_status, words_that_wait,
)

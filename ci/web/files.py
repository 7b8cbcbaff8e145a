"""All of a service in its configuration: program, environment, options and user, changed by words, and taken back."""
import os
import pathlib
import pwd
import subprocess
import sys
from typing import Any

from gate.addresses import answer_of
from gate.waiting import SECONDS, until
from web.applications import install
from web.attended import UPGRADE, answers, asks
from web.site import BIN, CLIENTS, Scenario, Site, text_of
from web.starts import status

SECRET = "hunter2-of-the-gate"
# Programs that do not start.
FAILS = ["sh", "-c", "exit 7"]


def in_file(site: Site, version: int, **more: Any) -> dict[str, Any]:
    """The table of a service whose workers are of a version, which their environment says."""
    key = {"file": str(site.room / "secret")}
    return {
        "program": site.program, "ready": "notify", "finish": 20 + version, "nice": version,
        "environment": {"VERSION": str(version), "PLAIN": f"{SECRET}-{version}", "KEY": key}, **more,
    }


def begin(site: Site, **more: Any) -> None:
    """Starts version 1."""
    install(site, "")
    (site.room / "secret").write_text(f"{SECRET}-of-a-file\n")
    site.program, site.is_in_file = [sys.executable, str(site.home / "page.py")], True
    site.begin(service=in_file(site, 1, **more))


def environment_of(process: int) -> dict[str, str]:
    """The environment of a process; empty if it has ended."""
    try:
        words = pathlib.Path(f"/proc/{process}/environ").read_bytes().split(b"\0")
    except OSError:
        return {}
    return dict(os.fsdecode(word).partition("=")[::2] for word in words if word)


def adapter_of(process: int) -> list[str]:
    """The arguments of the adapter of a program: the parent of the process that holds it."""
    for _ in range(2):
        process = int(pathlib.Path(f"/proc/{process}/stat").read_text().rpartition(")")[2].split()[1])
    return pathlib.Path(f"/proc/{process}/cmdline").read_text().split("\0")


def is_of(site: Site, version: int, count: int = 2) -> bool:
    """Whether all workers are of a version: by environment, priority, options of the adapter, and what they answer."""
    try:
        workers = site.workers()
        found = [environment_of(one) for one in workers]
        is_right = all(one.get("VERSION") == str(version) and one.get("KEY") == f"{SECRET}-of-a-file" for one in found)
        has_nice = all(os.getpriority(os.PRIO_PROCESS, one) == version for one in workers)
        finish = [words[words.index("--finish") + 1] for words in map(adapter_of, workers)]
    except (OSError, ValueError):
        return False
    return len(workers) == count and is_right and has_nice and set(finish) == {str(20 + version)}


def check_users_of(site: Site, version: int) -> None:
    until(f"two workers of version {version}", lambda: is_of(site, version))
    site.answered_by(version)


def one_starts_again(site: Site, version: int) -> None:
    """A worker that is started again is of the version that runs."""
    old = site.workers()
    site.kill(min(old))
    until("another worker", lambda: len(site.workers()) == 2 and len(site.workers() & old) == 1)
    check_users_of(site, version)


def shows_no_secret(site: Site) -> None:
    """What others may read, and what a service keeps, has no value of a variable; files that have one are its user's."""
    listed = subprocess.run(["ps", "-eo", "args"], capture_output=True, text=True, timeout=SECONDS).stdout
    site.check("ps shows a secret", SECRET not in listed)
    shown = [("status", str(status(site))), ("the log", text_of(site.room / "said"))]
    shown += [(str(file), file.read_text(errors="replace")) for file in [*(site.run / "records").rglob("*"), site.run / "journal"] if file.is_file()]
    for name, text in shown:
        site.check(f"{name} has a secret", SECRET not in text)
    for file in site.run.rglob("*"):
        if file.is_file() and SECRET in file.read_text(errors="replace"):
            site.check(f"others read {file}", not file.stat().st_mode & 0o077)
        if file.is_file():
            site.check(f"{file} keeps what a file has", f"{SECRET}-of-a-file" not in file.read_text(errors="replace"))


def all_of_it_is_in_the_file(site: Site) -> None:
    """HUP and USR2 change environment, options and priority; a rollback takes them back; a worker that starts again, and all
    of a master that is started again, have those of the version that runs."""
    begin(site)
    check_users_of(site, 1)
    for version, word in ((2, "HUP"), (3, "USR2")):
        site.configure(service=in_file(site, version))
        site.wants(word, 0, "done", 2)
        check_users_of(site, version)
        one_starts_again(site, version)
        site.configure(service=in_file(site, 9, program=FAILS))
        site.wants(word if version == 2 else "HUP", 3, "rolled-back", 2)
        check_users_of(site, version)
        one_starts_again(site, version)
    shows_no_secret(site)
    site.configure(service={**in_file(site, 4), "thread": 1})
    block, faults = site.sent("HUP").communicate(timeout=SECONDS)
    site.check(f"a key that is wrong: {block}{faults}", block.endswith("word HUP\nrefused service-keys\n"))
    site.check(f"it is not named: {faults}", "service.thread is no key: the nearest known key is threads" in faults)
    old = site.workers()
    site.kill(site.master())
    until("other workers", lambda: site.has_others(old))
    check_users_of(site, 3)
    site.end("123", may_fail=4 * CLIENTS)


def back_takes_the_file_back(site: Site) -> None:
    """Back at each question of an upgrade: the environment of before is that of all workers, also of those that start again."""
    begin(site)
    for at in (1, 2):
        site.configure(service=in_file(site, 1 + at))
        sent = site.sent(UPGRADE)
        asks(site, 1)
        if at == 2:
            answers(site, 1, "go")
            asks(site, 2)
            until("workers of the new version alone", lambda: is_of(site, 3))
        answers(site, at, "back")
        block, _ = sent.communicate(timeout=SECONDS)
        site.check(f"back at question {at}: {block}", sent.returncode == 3 and "\nrolled-back " in block)
        check_users_of(site, 1)
        one_starts_again(site, 1)
    site.end("1", may_fail=2 * CLIENTS, perhaps="23")


def a_service_is_killed_and_the_file_is_refused(site: Site) -> None:
    """The next start has what was accepted, with the variables of a file that has another text by then."""
    begin(site)
    variables = site.room / "variables"
    variables.write_text("FROM_FILE=one\n")
    site.configure(service=in_file(site, 2, environment_files=["variables"]))
    site.wants("HUP", 0, "done", 2)
    check_users_of(site, 2)
    variables.write_text("FROM_FILE=two\n")
    one_starts_again(site, 2)
    site.configure(service={**in_file(site, 3, environment_files=["variables"]), "thread": 1})
    old = site.workers()
    site.end_load()
    site.kill(site.serve.pid)
    site.serve.wait()
    until("the end of the old workers", lambda: not site.workers() & old)
    site.serve = site.started()
    check_users_of(site, 2)
    found = {environment_of(one).get("FROM_FILE") for one in site.workers()}
    site.check(f"variables of a file are {found}", found == {"one"})
    site.begin_load()
    site.end("2")


def a_file_names_the_user(site: Site) -> None:
    """Where root starts the service, a reload changes the user of its workers, and a rollback takes the user back."""
    if os.geteuid():
        begin(site)
        site.configure(service=in_file(site, 2, user="root"))
        site.wants_refused("HUP", "refused service-keys")
        site.end("1")
        return
    os.chmod(site.room, 0o755)
    begin(site, ready="accept")
    for version, user, word in ((2, "nobody", "HUP"), (3, "daemon", "USR2"), (4, "nobody", "HUP")):
        site.configure(service=in_file(site, version, user=user, ready="accept"))
        site.wants(word, 0, "done", 2)
        check_users_of(site, version)
        check_users_named(site, user)
    site.configure(service=in_file(site, 9, user="daemon", program=FAILS, ready="accept"))
    site.wants("HUP", 3, "rolled-back", 2)
    one_starts_again(site, 4)
    check_users_named(site, "nobody")
    site.end("1234", may_fail=CLIENTS)


def check_users_named(site: Site, name: str) -> None:
    """The workers run as a user, with its groups and its home, and without rights."""
    user = pwd.getpwnam(name)
    for one in site.workers():
        lines = dict(line.split(":\t", 1) for line in pathlib.Path(f"/proc/{one}/status").read_text().splitlines() if ":\t" in line)
        site.check(f"a worker has the users {lines['Uid']}", set(lines["Uid"].split()) == {str(user.pw_uid)})
        site.check(f"a worker has the groups {lines['Gid']}", set(lines["Gid"].split()) == {str(user.pw_gid)})
        site.check(f"a worker has the rights {lines['CapEff']}", not int(lines["CapEff"], 16))
        site.check("a worker has another home", environment_of(one).get("HOME") == user.pw_dir)


def two_applications(site: Site, second: list[str], version: int) -> dict[str, Any]:
    """A configuration of two groups, with an application each."""
    groups = [{"listeners": [site.first], "workers": 2}, {"listeners": [site.second], "workers": 1}]
    admin = {"listener": site.second, "program": second, "environment": {"VERSION": f"{version}{version}"}}
    return {"groups": groups, "service": in_file(site, version, groups={"admin": admin})}


def two_applications_are_one_service(site: Site) -> None:
    """Where one of them does not load, both go back, and which it was is said."""
    program = [sys.executable, str(site.home / "page.py")]
    install(site, "")
    (site.room / "secret").write_text(f"{SECRET}-of-a-file\n")
    site.program, site.is_in_file = program, True
    site.begin(**two_applications(site, program, 1))
    until("the second application", lambda: "version 11 " in answer_of(site.second))
    site.configure(**two_applications(site, program, 2))
    site.wants("HUP", 0, "done", 3)
    site.answered_by(2)
    until("the second application", lambda: "version 22 " in answer_of(site.second))
    for word in ("HUP", "USR2"):
        site.configure(**two_applications(site, FAILS, 3))
        block, faults = site.sent(word).communicate(timeout=SECONDS)
        site.check(f"{word}: {block}{faults}", "\nrolled-back " in block)
        said = "what has not started is of the group admin; all groups have gone back"
        site.check(f"{word}: which it was is not said: {faults}", said in faults)
        site.answered_by(2)
        until("the second application", lambda: "version 22 " in answer_of(site.second))
    found = subprocess.run([BIN / "prefork-ctl", "--folder", site.run, "try", "HUP"], capture_output=True, text=True, timeout=SECONDS)
    wanted = (f"prefork-ctl: for {site.first}: ready after ", f"prefork-ctl: for {site.second}: ")
    site.check(f"try HUP: {found}", "\nfailed not-ready" in found.stdout and all(text in found.stderr for text in wanted))
    site.configure(**two_applications(site, program, 3))
    site.wants("USR2", 0, "done", 3)
    site.end("123", perhaps="")


SCENARIOS: tuple[Scenario, ...] = (
    all_of_it_is_in_the_file, back_takes_the_file_back, a_service_is_killed_and_the_file_is_refused, a_file_names_the_user,
    two_applications_are_one_service,
)

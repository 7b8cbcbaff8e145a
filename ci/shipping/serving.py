"""The service, as the package installs it: who may run it, and what is left of it."""
import concurrent.futures
import os
import pathlib
import re
import shutil
import signal
import socket
import subprocess
import time
from collections.abc import Callable, Iterable
from typing import Any

from gate.addresses import answer_of, free_address, is_answered
from gate.configs import configuration
from gate.processes import Mark
from gate.waiting import SECONDS, until
from shipping.debian import Root
from shipping.room import SERVICE, Room, needs, needs_root, ran

# A user that owns nothing, and that every Debian has.
NOBODY = 65534
AS_NOBODY = ["setpriv", f"--reuid={NOBODY}", f"--regid={NOBODY}", "--clear-groups"]
NO_RIGHTS = ["--inh-caps=-all", "--ambient-caps=-all", "--no-new-privs"]
# What two-users.conf leaves to root.
RIGHTS = "-all,+net_bind_service,+setuid,+setgid,+kill,+setpcap"
LOW_PORTS = range(600, 1000)
PATH = "/usr/sbin:/usr/bin:/sbin:/bin"


class Service:
    """A service of the scratch root in a folder of its own, started by some words."""

    def __init__(self, room: Room, root: Root, name: str, address: str = ""):
        self.room, self.root, self.name, self.address = room, root, name, address or free_address()
        self.home = room.path / name
        self.home.mkdir()
        shutil.copy(SERVICE / "tests" / "programs" / "page.py", self.home)
        (self.home / "site.toml").write_text(configuration(listeners=[self.address], workers=1))
        self.run, self.mark = self.home / "run", Mark("SHIPPING")
        # The file that is there while a request is held. Workers make it, in a folder of their user.
        self.held = self.home / "theirs" / "held"
        self.held.parent.mkdir()
        os.chown(self.held.parent, NOBODY, NOBODY)
        self.serve: Any = None

    def check(self, what: str, holds: Any) -> None:
        said = (self.home / "said").read_text()[-800:]
        self.room.check(f"{self.name}: {what}: {said}", holds)

    def begin(
        self, before: Iterable[str], program: Iterable[str] = (), owner: int = NOBODY, options: Iterable[str] = ()
    ) -> None:
        """Starts it: `before` is put before its own command, and `program` before the application."""
        os.chown(self.home, owner, owner)
        command: list[Any] = [
            *before, self.root.bin / "prefork-serve", "--folder", self.run, "--prefork", self.root.bin / "prefork",
            *options, "site.toml", "--", *program, "/usr/bin/python3", "page.py",
        ]
        environment = self.mark.environment(PATH=PATH, HELD=str(self.held))
        with open(self.home / "said", "w") as said:
            streams: dict[str, Any] = {"stdin": subprocess.DEVNULL, "stdout": said, "stderr": said}
            self.serve = subprocess.Popen(command, cwd=self.home, env=environment, **streams)
        until(f"{self.name}: a page", lambda: is_answered(self.address) or self.serve.poll() is not None)
        self.check(f"it has ended with status {self.serve.poll()}", self.serve.poll() is None)

    def ctl(self, word: str, before: Iterable[str] = AS_NOBODY) -> subprocess.CompletedProcess[str]:
        return ran(*before, self.root.bin / "prefork-ctl", "--folder", self.run, word)

    def pages(self) -> list[int]:
        """The processes of the application."""
        own = ["/usr/bin/python3", "page.py"]
        return [number for number, words in self.mark.processes().items() if words == own]

    def finishes(self, tell: Callable[[], object]) -> None:
        """A request in progress is answered, though the service is told to end meanwhile."""
        with concurrent.futures.ThreadPoolExecutor(2) as pool:
            slow = pool.submit(answer_of, self.address, "/held")
            until(f"{self.name}: the request in progress", self.held.exists)
            told = pool.submit(tell)
            time.sleep(0.4)
            self.held.unlink()
            told.result(SECONDS)
            self.check("a request in progress is lost", slow.result(SECONDS).startswith("version "))
        self.check("it ends with another status", self.serve.wait(SECONDS) == 0)
        self.check(f"processes are left: {self.mark.processes()}", not self.mark.left())

    def close(self) -> None:
        self.mark.end_all()
        if self.serve:
            self.serve.wait()


def fields_of(process: int) -> dict[str, str]:
    """What the system says of a process: its users, its groups, its rights."""
    text = pathlib.Path(f"/proc/{process}/status").read_text()
    return dict(re.findall(r"^(\w+):\s+(.*)$", text, re.M))


def without_rights(service: Service) -> None:
    """All of it runs as one user, who owns nothing."""
    service.begin([*AS_NOBODY, "--no-new-privs"])
    users = {fields_of(number)["Uid"].split()[1] for number in service.mark.processes()}
    service.check(f"users {users}", users == {str(NOBODY)})
    for word in ("HUP", "USR2"):
        found = service.ctl(word)
        service.check(f"{word}: {found.stdout}", found.returncode == 0)
    service.finishes(lambda: service.ctl("QUIT"))
    left = [name for name in ("serve.pid", "ctl.sock", "keeper.sock", "workers") if (service.run / name).exists()]
    service.check(f"files are left: {left}", not left)


def as_first_process(service: Service) -> None:
    """In a container it is process 1, and is told to end by the signal that the image names: QUIT."""
    service.begin(["unshare", "--pid", "--fork", "--kill-child", "--mount-proc", *AS_NOBODY])
    [inside] = pathlib.Path(f"/proc/{service.serve.pid}/task/{service.serve.pid}/children").read_text().split()
    service.check("it is not the first process", fields_of(int(inside))["NSpid"].split()[-1] == "1")
    found = service.ctl("HUP")
    service.check(f"HUP: {found.stdout}", found.returncode == 0)
    service.finishes(lambda: os.kill(int(inside), signal.SIGQUIT))


def as_two_users(service: Service) -> None:
    """The master has rights that its workers do not have: it is root with some of them, and they are another user. What
    these wait for it can't see, so it asks for a page."""
    probes = ["--ready", "probe", "/"]
    service.begin(["setpriv", f"--bounding-set={RIGHTS}"], [*AS_NOBODY, *NO_RIGHTS], owner=0, options=probes)
    check_rights(service, fields_of(service.serve.pid)["Uid"].split()[1] == "0")
    found = service.ctl("HUP", [])
    service.check(f"HUP: {found.stdout}", found.returncode == 0)
    service.finishes(lambda: service.ctl("QUIT", []))


def at_a_low_port(service: Service) -> None:
    """The service may open a port below 1024, and its workers may not."""
    given = [f"--{kind}=-all,+net_bind_service" for kind in ("inh-caps", "ambient-caps", "bounding-set")]
    service.begin([*AS_NOBODY, *given], ["setpriv", *NO_RIGHTS])
    check_rights(service, int(fields_of(service.serve.pid)["CapEff"], 16))
    service.finishes(lambda: service.ctl("QUIT"))


def check_rights(service: Service, has_master: Any) -> None:
    service.check("the master has not the rights that it is given", has_master)
    pages = [fields_of(number) for number in service.pages()]
    rights = [(page["Uid"].split()[1], int(page["CapEff"], 16) | int(page["CapAmb"], 16)) for page in pages]
    service.check(f"users and rights of workers: {rights}", rights == [(str(NOBODY), 0)])


def low_address() -> str:
    """An address at a port below 1024 that nobody listens on."""
    for port in LOW_PORTS:
        with socket.socket() as probe:
            try:
                probe.bind(("127.0.0.1", port))
            except OSError:
                continue
            return f"127.0.0.1:{port}"
    raise ValueError("no port below 1024 is free")


def serves(room: Room) -> None:
    """Installs the package, runs services from it, and removes it."""
    package = room.the_package()
    needs_root()
    needs("setpriv", "unshare")
    root = Root(room.path / "root")
    root.run("--install", package)
    version = ran(root.bin / "prefork", "--version").stdout
    room.check(f"the program says {version}", version.startswith("prefork "))
    trials = {without_rights: "", as_first_process: "", as_two_users: "", at_a_low_port: low_address()}
    with concurrent.futures.ThreadPoolExecutor() as pool:
        list(pool.map(lambda trial: tried(room, root, trial, trials[trial]), trials))
    removes_all(room, root)


def tried(room: Room, root: Root, trial: Callable[[Service], None], address: str) -> None:
    service = Service(room, root, trial.__name__, address)
    try:
        trial(service)
    finally:
        service.close()


def removes_all(room: Room, root: Root) -> None:
    """Nothing is left of it but its configuration, and after a purge what others have put there."""
    own = root.path / "etc" / "prefork" / "site.toml"
    own.write_text("workers = 1\n")
    root.run("--remove", "prefork")
    left = root.files()
    room.check(f"after its removal there are {left}", left == ["etc/prefork/default.env", "etc/prefork/site.toml"])
    folders = [str(folder.relative_to(root.path)) for folder in root.path.rglob("*") if folder.is_dir()]
    strange = [name for name in folders if not name.startswith("var") and name not in ("etc", "etc/prefork")]
    room.check(f"folders are left: {strange}", not strange)
    root.run("--purge", "prefork")
    room.check(f"after a purge there are {root.files()}", root.files() == ["etc/prefork/site.toml"])
    room.check("dpkg still knows it", "prefork" not in (root.path / "var/lib/dpkg/status").read_text())

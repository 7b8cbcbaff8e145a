"""The guides of service/guides, typed as they are, with the service as ./install installs it; and service/README, in a
copy of its folder.

Each page leads to an answer, and to a reload with status 0, within two minutes. Its ports are others here.
"""
import functools
import os
import pathlib
import re
import shutil
import subprocess
import tempfile
import threading
import time
from collections.abc import Callable, Iterator
from typing import Any

from gate.addresses import free_address
from gate.again import Work
from gate.documents.commands import of_markdown
from gate.processes import Mark
from gate.tally import ROOT, Tally
from gate.waiting import Wrong

SERVICE = ROOT / "service"
GUIDES = SERVICE / "guides"
HELLO = "hello from process"
# A page that writes the configuration by itself, and does not take that of the first page.
ALONE = "file.md"
# The pages, each with the set-ups and programs of ci/adapters that it needs, what an answer has, and the options of curl.
PAGES = {
    "wsgi.md": ({"wsgi"}, HELLO), "gunicorn.md": ({"gunicorn"}, HELLO), "uvicorn.md": ({"uvicorn", "the command uvicorn"}, HELLO),
    "node.md": ({"node"}, HELLO), "ruby.md": ({"unicorn", "puma"}, HELLO), "nginx.md": ({"nginx"}, "Welcome to nginx"),
    ALONE: ({"gunicorn"}, HELLO), "haproxy.md": ({"haproxy"}, HELLO), "uwsgi.md": ({"uwsgi"}, HELLO), "go.md": ({"go"}, HELLO),
    "django.md": ({"wsgi", "django", "nginx", "gunicorn"}, HELLO),
}
# Of a page, what is printed of an address that is asked for.
PRINTED = {"django.md": {
    "http://127.0.0.1:8080/": "to 192.0.2.7", "http://127.0.0.1:8082/": "301 Moved Permanently",
    "https://127.0.0.1:8443/": "to 127.0.0.1", "https://127.0.0.1:8443/static/style.css": "color: green",
}}
# What is typed before reloads that fail, with status 3.
BREAKS = "echo '1 / 0' >>"
# What is printed of a reload, by its status; of one that was tried first too.
RELOADS = {0: re.compile(r"^done cause none pid no-file$", re.M), 3: re.compile(r"^(rolled-back |failed not-ready$)", re.M)}
ADDRESS, ADDED = "127.0.0.1:8080", "127.0.0.1:8081"
ADDRESSES = (ADDRESS, "127.0.0.1:8082", "127.0.0.1:8443")
README, README_NEEDS = "service/README.md", {"wsgi", "gunicorn"}
NUMBER = re.compile(r"process \d+")
# How often a page asks for its first answer, once a second, and how often that is done here: a busy machine starts a
# service more slowly than an operator's.
ASKS, OFTEN = "--retry 9 --retry-delay 1 ", "--retry 90 --retry-delay 1 "
# The time from the first command to the status of the reload.
MOST_SECONDS = 120
# What begins a block that is typed.
TYPED = re.compile(r"^(?:\S+=\S+ )?(?:prefork|mkdir|sed|curl|openssl|nginx|python3|echo|go build|sleep)", re.M)
# A program is typed with & after it, so its output is a file.
BLOCK = re.compile(r"^( *)```(\w+)\n(.*?)^ *```$", re.M | re.S)
NAME = re.compile(r"`([\w.-]+\.(?:py|js|ru|go|toml|cfg|css|conf|conf\.in)|start-\w+)`")
# What a page asks with beside the address: the proxy of its application.
HEADERS = re.compile(r"-H '[^']*'")


def blocks_of(text: str) -> Iterator[tuple[str, str]]:
    """The blocks of a page in their order: what is typed, with no name, and files with theirs."""
    at = 0
    for found in BLOCK.finditer(text):
        lines = [line.removeprefix(found[1]) for line in found[3].splitlines(keepends=True)]
        names = NAME.findall(text, at, found.start())
        is_typed = found[2] == "sh" and not lines[0].startswith("#!")
        yield ("" if is_typed or not names else names[-1], "".join(lines))
        at = found.end()


class Reader:
    """Somebody who follows a page in a folder of its own."""

    def __init__(self, page: str, answer: str, path: str, room: pathlib.Path):
        self.page, self.answer, self.room = page, answer, room
        self.addresses, self.mark, self.wrong = {one: free_address() for one in ADDRESSES}, Mark("GUIDES_OF"), list[str]()
        self.address = self.addresses[ADDRESS]
        self.environment = self.mark.environment(PATH=path, LC_ALL="C", GOCACHE=str(SERVICE / "out" / "go-cache"))
        self.headers = ""

    def filled(self, text: str) -> str:
        """A text of a page with the addresses of this reader."""
        for one, free in self.addresses.items():
            text = text.replace(one, free)
        return text.replace(ASKS, OFTEN)

    def text(self, page: str) -> str:
        return self.filled((GUIDES / page).read_text())

    def write(self, page: str) -> None:
        """Writes the files of a page."""
        for name, block in blocks_of(self.text(page)):
            if name:
                (self.room / name).write_text(block)
                (self.room / name).chmod(0o755)

    def typed(self, command: str, status: int = 0) -> str:
        """Types a command; what it prints. Its status must be this one."""
        with open(self.room / "printed", "w+b") as printed:
            how: dict[str, Any] = {"stdin": subprocess.DEVNULL, "stdout": printed, "stderr": subprocess.STDOUT}
            how |= {"cwd": self.room, "env": self.environment, "timeout": MOST_SECONDS}
            ended = subprocess.run(["bash", "-c", command], **how)
            printed.seek(0)
            text = printed.read().decode(errors="replace")
        if ended.returncode != status:
            self.wrong.append(f"{self.page}: {command.splitlines()[0]}: status {ended.returncode}: {text[-500:]}")
        return text

    def expect(self, command: str, printed: str, wanted: str) -> None:
        if wanted not in printed:
            self.wrong.append(f"{self.page}: {command.splitlines()[0]}: {wanted!r} is not in {printed[-500:]!r}")

    def follow(self) -> None:
        """Follows the page from its first command to its last one."""
        if self.page != ALONE:
            self.write("README.md")
        self.write(self.page)
        started = time.monotonic()
        for name, block in blocks_of(self.text(self.page)):
            if not name and TYPED.search(block):
                self.type_block(block)
        seconds = time.monotonic() - started
        if seconds > MOST_SECONDS:
            self.wrong.append(f"{self.page}: this took {seconds:.0f} seconds")

    def type_block(self, block: str) -> None:
        """Types the commands of a block, and looks at what they print. One that starts something ends with &."""
        breaks = 0
        for command in block.replace("\\\n", " ").splitlines():
            breaks = 3 if command.startswith(BREAKS) else breaks
            if command.startswith("prefork-serve ") and (self.room / "run" / "serve.pid").exists():
                # (the word is answered a moment before the service has ended, and another one is refused until then)
                self.stop()
            printed = self.typed(command)
            self.headers = " ".join(HEADERS.findall(command)) or self.headers
            if command.startswith("curl "):
                told = {self.filled(asked): text for asked, text in PRINTED.get(self.page, {}).items()}
                self.expect(command, printed, told.get(command.split()[-1], self.answer))
            elif command.startswith("prefork-serve ") and "curl " not in block:
                ask = f"curl --silent --show-error {OFTEN}--retry-connrefused {self.headers} http://{self.address}/"
                self.expect(command, self.typed(ask), self.answer)
            if command.endswith("echo $?"):
                self.expect(command, printed, f"\n{breaks}\n")
                self.expect(command, printed, found[0] if (found := RELOADS[breaks].search(printed)) else RELOADS[breaks].pattern)

    def break_off(self) -> None:
        """An application that does not load is rolled back, and the old one serves on, as the pages say."""
        if (self.room / "hello.py").exists():
            (self.room / "hello.py").write_text("1 / 0\n")
            self.expect("a broken hello.py", self.typed("prefork-ctl HUP", 3), "\nrolled-back ")
            self.expect("a broken hello.py", self.typed(f"curl --silent {self.headers} http://{self.address}/"), self.answer)

    def stop(self, quits: str = "prefork-ctl QUIT") -> None:
        self.typed(quits)
        if left := self.mark.left():
            self.wrong.append(f"{self.page}: processes are left: {left}")


def faults(page: str, path: str) -> list[str]:
    """What is wrong with a guide."""
    with tempfile.TemporaryDirectory(prefix="guides-") as room:
        reader = Reader(page, PAGES[page][1], path, pathlib.Path(room))
        try:
            reader.follow()
            reader.break_off()
            reader.stop()
        except (OSError, subprocess.TimeoutExpired) as fault:
            reader.wrong.append(f"{reader.page}: {fault!r}")
        finally:
            reader.mark.end_all()
        return reader.wrong


class ReaderOfService(Reader):
    """Somebody who follows service/README in the folder of the service, of a tree whose program is there."""

    def __init__(self, prefork: str, path: str, room: pathlib.Path):
        super().__init__(README, HELLO, path, room / "service")
        self.added = free_address()
        shutil.copytree(SERVICE, self.room, ignore=shutil.ignore_patterns("out", "run", "__pycache__"))
        program = room / "crates" / "prefork" / "out" / "prefork"
        program.parent.mkdir(parents=True)
        program.symlink_to(prefork)
        for file in (self.room / "examples").glob("*.toml"):
            file.write_text(self.with_ports(file.read_text()))

    def with_ports(self, text: str) -> str:
        return text.replace(ADDRESS, self.address).replace(ADDED, self.added).replace(ASKS, OFTEN)

    def follow(self) -> None:
        """Types each command whose output the page has, and compares the two."""
        for command in of_markdown(self.with_ports((SERVICE / "README.md").read_text())):
            if command.printed is not None:
                printed = self.typed(f"{command.typed} 2>/dev/null")
                self.expect(command.typed, NUMBER.sub("process", printed), NUMBER.sub("process", command.printed))


def faults_of_readme(prefork: str, path: str) -> list[str]:
    """What is wrong with service/README."""
    with tempfile.TemporaryDirectory(prefix="guides-") as room:
        reader = ReaderOfService(prefork, path, pathlib.Path(room))
        try:
            reader.follow()
            reader.stop("bin/prefork-ctl QUIT")
        except (OSError, subprocess.TimeoutExpired) as fault:
            reader.wrong.append(f"{README}: {fault!r}")
        finally:
            reader.mark.end_all()
        return reader.wrong


class Installed:
    """The service as ./install installs it, once for all pages."""

    def __init__(self) -> None:
        self.lock, self.prefix = threading.Lock(), tempfile.TemporaryDirectory(prefix="installed-")
        self.path = ""

    def path_with(self, prefork: str) -> str:
        """The path of a shell that finds it, with this program. The Python of Debian's packages is the first one."""
        with self.lock:
            if not self.path:
                command = [str(ROOT / "install"), "--unproved", prefork, self.prefix.name]
                done = subprocess.run(command, stdin=subprocess.DEVNULL, capture_output=True, text=True)
                if done.returncode:
                    raise Wrong(f"./install ends with {done.returncode}: {done.stderr}")
                self.path = f"{self.prefix.name}/bin:/usr/sbin:/usr/bin:{os.environ['PATH']}"
            return self.path


INSTALLED = Installed()


def remove_installed() -> None:
    INSTALLED.prefix.cleanup()


def outcome(prefork: str, follows: Callable[[str], list[str]]) -> Tally:
    tally = Tally()
    tally.check(follows(INSTALLED.path_with(prefork)))
    return tally


def works(prefork: str, there: set[str], others: dict[str, Callable[[str], list[str]]]) -> list[Work]:
    """The guides whose set-ups are there, the page of the service, and others that need what that needs."""
    pages: dict[str, Callable[[str], list[str]]] = {}
    for page, (needed, _) in PAGES.items():
        if needed <= there:
            pages[page] = functools.partial(faults, page)
    if README_NEEDS <= there:
        pages[README] = functools.partial(faults_of_readme, prefork)
        pages.update(others)
    return [Work(page, functools.partial(outcome, prefork, follows)) for page, follows in pages.items()]

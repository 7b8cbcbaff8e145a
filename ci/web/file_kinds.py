"""Applications as they are, with all of a service in its file: arguments, environment, options of the adapter and user are
changed by HUP and USR2 under load, and taken back by a rollback and by `back`; no request is lost. A worker that is started
again afterwards has those of the version that runs."""
import dataclasses
import os
import pathlib
import pwd
import shutil
import subprocess
from collections.abc import Callable
from typing import Any

from gate.waiting import SECONDS, until
from web.attended import UPGRADE, answers, asks
from web.files import FAILS, SECRET, environment_of, in_file
from web.site import Scenario, Site, name_of

WSGI = """import os
def app(environ, start_response):
    text = b"version %s process %d\\n" % (os.environ["VERSION"].encode(), os.getpid())
    start_response("200 OK", [("Content-Type", "text/plain"), ("Content-Length", str(len(text)))])
    return [text]
"""
RACK = """run lambda { |env|
  [200, {"Content-Type" => "text/plain"}, ["version #{ENV["VERSION"]} process #{$$}\\n"]]
}
"""
NODE = """const http = require("http");
let leaving = false;
const server = http.createServer((request, response) => {
  if (leaving) response.setHeader("Connection", "close");
  response.end(`version ${process.env.VERSION} process ${process.pid}\\n`);
}).listen({ fd: 3, backlog: 1024 });
process.on("SIGTERM", () => { leaving = true; server.close(); });
"""
PHP = """<?php echo "version ", getenv("VERSION"), " process ", getmypid(), "\\n";
"""
FPM = """[global]
error_log = /dev/null
daemonize = no
process_control_timeout = 20
[www]
listen = @BACK@
user = root
pm = static
pm.max_children = 4
clear_env = no
"""
# A web server that asks php-fpm, beside the service.
FRONT = """daemon off; worker_processes 1; pid @ROOM@/front.pid; error_log stderr crit; @USER@
events { worker_connections 512; }
http { access_log off; client_body_temp_path @ROOM@/b; proxy_temp_path @ROOM@/p; fastcgi_temp_path @ROOM@/f;
  uwsgi_temp_path @ROOM@/u; scgi_temp_path @ROOM@/s;
  server { listen @FRONT@; location / { fastcgi_param REQUEST_METHOD GET; fastcgi_param SCRIPT_FILENAME @HOME@/app.php;
    fastcgi_pass @BACK@; } } }
"""
FPM_KEYS = {"blocking": True, "stop": "QUIT", "listen_fds": False}
PATH = f"{os.environ['PATH']}:/usr/sbin:/usr/bin"
# The users of versions, where root starts the service: workers of one version are this process's own.
USERS = {1: "", 2: "nobody", 3: "daemon", 4: "", 5: "nobody"}


@dataclasses.dataclass(frozen=True)
class Kind:
    """A kind of applications: its file, the program of a version that is started for one folder, options of the service, and
    whether it closes kept connections that are idle when it is told to finish, so that a client asks again, as HTTP says."""

    name: str
    file: str
    text: str
    program: Callable[[pathlib.Path, int], list[str]]
    options: tuple[str, ...] = ()
    closes_kept: bool = False
    more: dict[str, Any] = dataclasses.field(default_factory=dict)

    def table(self, site: Site, version: int, is_broken: bool = False) -> dict[str, Any]:
        """The table `service` of a version; of one that does not start, if that is wanted."""
        user = USERS[version] if not os.geteuid() else ""
        found = {**in_file(site, version), **({"user": user} if user else {})}
        del found["ready"], found["program"]
        program = self.program(site.home, version)
        if self.more:
            found = {**found, **self.more, "environment": {**found["environment"], "FPM_SOCKETS": "{fpm}"}}
        if program:
            return {**found, "program": FAILS if is_broken else program}
        application = {"wsgi": "missing:app" if is_broken else "app:app", "threads": 4 + version, "folder": str(site.home)}
        return {**found, **application, "python": PYTHON}


def python_with(module: str) -> str:
    """A Python that has a module; nothing if there is none."""
    for python in (shutil.which("python3") or "", "/usr/bin/python3"):
        if python and not subprocess.run([python, "-c", f"import {module}"], capture_output=True).returncode:
            return python
    return ""


def found_at(program: str) -> str:
    return shutil.which(program, path=PATH) or ""


PYTHON = python_with("waitress")
KINDS = (
    Kind("wsgi", "app.py", WSGI, lambda home, version: []),
    Kind("gunicorn", "app.py", WSGI, lambda home, version: [
        found_at("gunicorn"), "--chdir", str(home), "-w", "1", "-k", "gthread", "--threads", str(4 + version), "--log-level", "error", "app:app"],
        closes_kept=True),
    # It closes connections that it has not heard from: it is given none.
    Kind("puma", "app.ru", RACK, lambda home, version: [
        found_at("puma"), "--bind-to-activated-sockets", "only", "-q", "-t", f"4:{4 + version}", "-e", "production", str(home / "app.ru")],
        ("--defer-accept",), closes_kept=True),
    Kind("node", "app.js", NODE, lambda home, version: [found_at("node"), str(home / "app.js"), f"--version-{version}"], closes_kept=True),
    Kind("php", "app.php", PHP, lambda home, version: [
        found_at("php-fpm8.2"), "-R", "-d", f"memory_limit={64 + version}M", "-y", str(home / "fpm.conf")], more=FPM_KEYS),
)


def words_of(process: int) -> list[str]:
    return pathlib.Path(f"/proc/{process}/cmdline").read_text().split("\0")[:-1]


def user_of(process: int) -> int:
    lines = pathlib.Path(f"/proc/{process}/status").read_text().splitlines()
    return int(next(line for line in lines if line.startswith("Uid:")).split()[2])


def programs_of(worker: int) -> list[int]:
    """The program of an adapter: what the process has started that holds it."""
    found = [worker]
    for _ in range(2):
        found = [int(word) for one in found for word in pathlib.Path(f"/proc/{one}/task/{one}/children").read_text().split()]
    return found


def is_of(site: Site, kind: Kind, version: int) -> bool:
    """Whether two workers run, of a version alone: by arguments, options of the adapter, environment, priority and user."""
    table = kind.table(site, version)
    try:
        workers = site.workers()
        told = [words_of(one) for one in workers]
        finish = {words[words.index("--finish") + 1] for words in told}
        program = table.get("program", ["app:app"])
        is_told = all(words[-len(program) :] == program for words in told)
        if "threads" in table:
            is_told = is_told and all(words[words.index("--threads") + 1] == str(table["threads"]) for words in told)
        served = {number: environment_of(number) for number in site.mark.processes()}
        # (php-fpm writes its title over its environment)
        served = {number: found for number, found in served.items() if "VERSION" in found and not name_of(number).startswith("php-fpm")}
        is_set = all(found["VERSION"] == str(version) and found.get("KEY") == f"{SECRET}-of-a-file" for found in served.values())
        has_nice = all(os.getpriority(os.PRIO_PROCESS, one) == version for one in served)
        own = [one for one in served if "program" not in table or not name_of(one).startswith(("worker ", "prefork-"))]
        own = [program for one in workers for program in programs_of(one)] if kind.more else own
        user = pwd.getpwnam(table["user"]).pw_uid if "user" in table else os.geteuid()
        has_user = bool(own) and all(user_of(one) == user for one in own)
    except (OSError, ValueError, StopIteration):
        # (one has just ended)
        return False
    return len(workers) == 2 and finish == {str(20 + version)} and is_told and is_set and has_nice and has_user


def check_users_of(site: Site, kind: Kind, version: int) -> None:
    until(f"two workers of version {version}", lambda: is_of(site, kind, version))
    site.answered_by(version)


def one_starts_again(site: Site, kind: Kind, version: int, versions: str) -> None:
    """All before it was answered. Nobody asks while a worker is killed; the next one is of the version that runs."""
    site.check_load(site.end_load(), str(version), 0, versions)
    old = site.workers()
    site.kill(min(old))
    until("another worker", lambda: len(site.workers()) == 2 and len(site.workers() & old) == 1)
    check_users_of(site, kind, version)
    site.begin_load()


def listener_of(site: Site, kind: Kind) -> str:
    """The address of the service: php has a web server before it, which has the first one."""
    return site.second if kind.more else site.first


def configure(site: Site, kind: Kind, table: dict[str, Any]) -> None:
    site.configure(service=table, listeners=[listener_of(site, kind)])


def goes_back(site: Site, kind: Kind, version: int, number: int) -> None:
    """Back at a question of an upgrade to another version."""
    configure(site, kind, kind.table(site, version + number))
    sent = site.sent(UPGRADE)
    asks(site, 1)
    if number == 2:
        answers(site, 1, "go")
        asks(site, 2)
    answers(site, number, "back")
    block, _ = sent.communicate(timeout=SECONDS)
    site.check(f"back at question {number}: {block}", sent.returncode == 3 and "\nrolled-back " in block)
    check_users_of(site, kind, version)
    one_starts_again(site, kind, version, str(version + number))


def goes_there_and_back(site: Site, kind: Kind) -> None:
    """Two versions by words, each followed by one that does not start, and by `back` at each question."""
    os.chmod(site.room, 0o755)
    (site.home / kind.file).write_text(kind.text)
    (site.room / "secret").write_text(f"{SECRET}-of-a-file\n")
    site.program, site.is_in_file, site.is_forked, site.options = [], True, True, kind.options
    site.load_options = ["--again"] if kind.closes_kept else []
    site.begin(service=kind.table(site, 1), listeners=[listener_of(site, kind)])
    check_users_of(site, kind, 1)
    for version, word in ((2, "HUP"), (3, "USR2")):
        configure(site, kind, kind.table(site, version))
        site.wants(word, 0, "done", 2)
        check_users_of(site, kind, version)
        configure(site, kind, kind.table(site, 5, is_broken=True))
        site.wants("HUP", 3, "rolled-back", 2)
        check_users_of(site, kind, version)
        one_starts_again(site, kind, version, str(version - 1))
    for number in (1, 2):
        goes_back(site, kind, 3, number)
    site.end("3", perhaps="45")


def wsgi_is_in_the_file(site: Site) -> None:
    goes_there_and_back(site, KINDS[0])


def gunicorn_is_in_the_file(site: Site) -> None:
    goes_there_and_back(site, KINDS[1])


def puma_is_in_the_file(site: Site) -> None:
    goes_there_and_back(site, KINDS[2])


def node_is_in_the_file(site: Site) -> None:
    goes_there_and_back(site, KINDS[3])


def php_is_in_the_file(site: Site) -> None:
    """php-fpm, and nginx before it, which the service does not run, and which asks on a connection for each request."""
    names = {"@ROOM@": site.room, "@HOME@": site.home, "@FRONT@": site.first, "@BACK@": site.second, "@USER@": "" if os.geteuid() else "user root;"}
    for file, text in ((site.home / "fpm.conf", FPM), (site.room / "front.conf", FRONT)):
        for name, value in names.items():
            text = text.replace(name, str(value))
        file.write_text(text)
    with subprocess.Popen([found_at("nginx"), "-e", "stderr", "-c", str(site.room / "front.conf")]) as front:
        try:
            goes_there_and_back(site, KINDS[4])
        finally:
            front.terminate()


EVERY: dict[str, Scenario] = {
    "wsgi": wsgi_is_in_the_file, "gunicorn": gunicorn_is_in_the_file, "puma": puma_is_in_the_file, "node": node_is_in_the_file,
    "php-fpm8.2": php_is_in_the_file,
}
SCENARIOS: tuple[Scenario, ...] = tuple(
    scenario for name, scenario in EVERY.items() if (PYTHON if name == "wsgi" else found_at(name) and (name != "php-fpm8.2" or found_at("nginx")))
)

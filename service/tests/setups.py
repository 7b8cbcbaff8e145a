"""Programs as workers: how each is started under prefork-serve, its application, and what breaks it."""
import dataclasses
import os
import pathlib
import shutil
import subprocess
from collections.abc import Callable

from kit import OUT, PROGRAMS, PYTHON

WSGI = """import os, time
def app(environ, start_response):
    if environ["PATH_INFO"] == "/slow":
        time.sleep(1)
    text = b"version @VERSION@ process %d\\n" % os.getpid()
    start_response("@CODE@ Told", [("Content-Type", "text/plain"), ("Content-Length", str(len(text)))])
    return [text]
"""
FLASK = """import os, time
from flask import Flask
app = Flask(__name__)
@app.get("/")
def page():
    return f"version @VERSION@ process {os.getpid()}\\n", @CODE@
@app.get("/slow")
def slow():
    time.sleep(1)
    return "version @VERSION@ slow\\n"
"""
ASGI = """import asyncio, os
async def app(scope, receive, send):
    if scope["type"] == "lifespan":
        while True:
            message = await receive()
            await send({"type": message["type"] + ".complete"})
            if message["type"] == "lifespan.shutdown":
                return
    if scope["path"] == "/slow":
        await asyncio.sleep(1)
    text = b"version @VERSION@ process %d\\n" % os.getpid()
    headers = [(b"content-type", b"text/plain"), (b"content-length", str(len(text)).encode())]
    await send({"type": "http.response.start", "status": @CODE@, "headers": headers})
    await send({"type": "http.response.body", "body": text})
"""
# uvicorn closes a connection unheard that it has just accepted when it is told to finish: that has five seconds here,
# longer than a client may halt.
UVICORN = """import asyncio, os, socket, sys
import uvicorn

class Server(uvicorn.Server):
    async def shutdown(self, sockets=None):
        for server in self.servers:
            server.close()
        await asyncio.sleep(5)
        await super().shutdown(sockets)

sys.path.insert(0, "@SITE@")
given = [socket.socket(fileno=3 + at) for at in range(int(os.environ["LISTEN_FDS"]))]
Server(uvicorn.Config("app:app", log_level="error")).run(sockets=given)
"""
RACK = """run lambda { |env|
  sleep 1 if env["PATH_INFO"] == "/slow"
  [@CODE@, {"Content-Type" => "text/plain"}, ["version @VERSION@ process #{$$}\\n"]]
}
"""
NODE = """const http = require("http");
let leaving = false;
const page = (request, response) => {
  const answer = () => {
    if (leaving) response.setHeader("Connection", "close");
    response.statusCode = @CODE@;
    response.end(`version @VERSION@ process ${process.pid}\\n`);
  };
  request.url === "/slow" ? setTimeout(answer, 1000) : answer();
};
const numbers = [...Array(Number(process.env.LISTEN_FDS)).keys()];
const servers = numbers.map((at) => http.createServer(page).listen({ fd: 3 + at, backlog: 1024 }));
process.on("SIGTERM", () => { leaving = true; servers.forEach((server) => server.close()); });
"""
# Started by root, nginx has another user for its workers, who can't read a temporary folder.
NGINX = ("user root;\n" if os.geteuid() == 0 else "") + """daemon off; worker_processes 1; pid @ROOM@/nginx.pid; error_log stderr crit;
events { worker_connections 512; }
http { access_log off; client_body_temp_path @ROOM@/b; proxy_temp_path @ROOM@/p; fastcgi_temp_path @ROOM@/f;
  uwsgi_temp_path @ROOM@/u; scgi_temp_path @ROOM@/s;
  server { listen @ADDRESS@;@MORE@ root @SITE@; location = /slow { limit_rate 32k; } } }
"""
LIGHTTPD = """server.document-root = "@SITE@"
server.port = 1
server.systemd-socket-activation = "enable"
index-file.names = ("index.html")
server.feature-flags = ("server.graceful-shutdown-timeout" => 20)
$HTTP["url"] == "/slow" { connection.kbytes-per-second = 32 }
"""
# A pool for each address. Started by root, it keeps that user, who can read a temporary folder. The page says the version
# of the process that answers, whatever the file has by then.
FPM_POOL = """[@NAME@]
listen = @ADDRESS@
user = root
pm = static
pm.max_children = 4
clear_env = no
"""
FPM = "[global]\nerror_log = /dev/null\ndaemonize = no\nprocess_control_timeout = 20\n"
PHP = """<?php if ($_SERVER["REQUEST_URI"] === "/slow") sleep(1);
echo "version ", getenv("VERSION"), " process ", getmypid(), "\\n";
"""
# A bind for each address is added by the script that starts it. At its stop signal it closes idle connections, as HTTP
# allows: a client asks again.
HAPROXY = """global
  hard-stop-after 25s
  lua-load @SITE@/page.lua
defaults
  mode http
  timeout connect 5s
  timeout client 30s
  timeout server 30s
frontend site
  http-request use-service lua.page
"""
HAPROXY_PAGE = """core.register_service("page", "http", function(applet)
  if applet.path == "/slow" then core.msleep(1000) end
  local text = "version @VERSION@ slow\\n"
  applet:set_status(@CODE@)
  applet:add_header("content-length", string.len(text))
  applet:start_response()
  applet:send(text)
end)
"""
AFTER, FROM_START = "after", "from the start"
# A page that takes a second or two at 32 KB a second.
SLOW_PAGE = "version 1 slow\n" + "x" * 65536


@dataclasses.dataclass
class Setup:
    """How a program is run: the options of prefork-serve, the shell's line that starts it, and its files."""

    name: str
    options: list[str]
    # The words of prefork-serve after CONFIG; @SITE@ is the folder of its files.
    start: str
    files: dict[str, str]
    # The file without which the application does not load.
    needed: str
    is_there: Callable[[], bool] = lambda: True
    # Whether it serves each address that it is given, and not the first one alone.
    takes_all: bool = True
    # Whether it speaks FastCGI, and not HTTP; the page is app.php then.
    is_fastcgi: bool = False
    # When it accepts connections if it is probed: after its probe, or from its start. Nothing if it has no page to probe.
    probed: str = ""

    def write(self, site: pathlib.Path, version: int, place: str = "", code: int = 200) -> None:
        """Writes the application in a version, each file by a rename. It finds its files at a place: the folder itself,
        if no other one is said. It answers with this status."""
        given = "# $1: {fd}, $2: {address}, $3: {room}, $4: {address1}, which is empty for one address"
        start = f"#!/bin/sh\n{given}\nVERSION=@VERSION@ CODE=@CODE@; export VERSION CODE\nexec {self.start}\n"
        values = {"@VERSION@": str(version), "@CODE@": str(code), "@SITE@": place or str(site)}
        for name, text in {"start": start, **self.files}.items():
            for key, value in values.items():
                text = text.replace(key, value)
            put(site / name, text)

    def arguments(self, site: pathlib.Path, place: str = "") -> list[str]:
        """The arguments of prefork-serve, without those of the service itself."""
        options = [word.replace("@SITE@", str(site)) for word in self.options]
        start = f"{place or site}/start"
        program = ["--", start, "{fd}", "{address}", "{room}", "{address1}"] if self.start else []
        return [*options, "site.toml", *program]


def put(file: pathlib.Path, text: str) -> None:
    new = file.with_name(f".{file.name}")
    new.write_text(text)
    new.chmod(0o755)
    new.replace(file)


def has(*programs: str) -> Callable[[], bool]:
    return lambda: all(shutil.which(program, path=path()) for program in programs)


def path() -> str:
    """Debian has servers in /usr/sbin, and the Python of its packages in /usr/bin."""
    return f"{os.environ['PATH']}:/usr/sbin:/usr/bin"


def python_with(*modules: str) -> str | None:
    for python in (PYTHON, "/usr/bin/python3"):
        command = [python, "-c", f"import {', '.join(modules)}"]
        if os.path.exists(python) and subprocess.run(command, capture_output=True).returncode == 0:
            return python
    return None


FLASK_PYTHON, UVICORN_PYTHON = python_with("waitress", "flask"), python_with("uvicorn")
FLASK_OPTIONS = ["--python", FLASK_PYTHON or "", "--chdir", "@SITE@", "--wsgi", "app:app"]
GUNICORN_START = "gunicorn --chdir @SITE@ -w 1 -k gthread --threads 4 --log-level error app:app"
# The socket of a probe is in the room, if there is a probe.
UNICORN_START = """unicorn -E none -c @SITE@/unicorn.rb -l "$2" ${4:+-l "$4"} $(test -S "$3/probe" && echo "-l $3/probe") \\
    @SITE@/app.ru"""
PAGE_START = '@SITE@/page "$1" $(test -S "$3/probe" && echo $(($1 + 1)))'
PUMA_START = "puma --bind-to-activated-sockets only -q -t 4:4 -e production @SITE@/app.ru"
# (configurations are filled in by the script itself. nginx finds a folder `.` from where it starts)
NGINX_START = """sh -c 'sed "s,@ADDRESS@,$1,;s,@MORE@,${3:+ listen $3;},;s,@ROOM@,$2,g" @SITE@/nginx.conf >"$2/nginx.conf" &&
    exec nginx -p "$(pwd -P)" -e stderr -c "$2/nginx.conf"' sh "$2" "$3" "$4\""""
FPM_START = """sh -c 'cat @SITE@/fpm.conf >"$2/fpm.conf"; at=0; for address in $1 $3; do at=$((at + 1))
    sed "s,@NAME@,pool$at,;s,@ADDRESS@,$address," @SITE@/pool.conf >>"$2/fpm.conf"; done
    exec php-fpm8.2 -R -y "$2/fpm.conf"' sh "$2" "$3" "$4\""""
HAPROXY_START = """sh -c 'cat @SITE@/haproxy.cfg >"$0/haproxy.cfg"; at=3; while [ $at -lt $((3 + LISTEN_FDS)) ]; do
    echo "  bind fd@$at" >>"$0/haproxy.cfg"; at=$((at + 1)); done; exec haproxy -db -f "$0/haproxy.cfg"' "$3\""""
UWSGI_START = """sh -c 'exec uwsgi --plugin python3 --master --need-app --processes 2 --disable-logging --http-socket "fd://3" \\
    ${2:+--http-socket fd://4} --hook-master-start "unix_signal:15 gracefully_kill_them_all" --chdir "$(pwd -P)/@SITE@" \\
    --module app:app' sh "$2" "$4\""""
SETUPS = [
    Setup("wsgi", FLASK_OPTIONS, "", {"app.py": FLASK}, "app.py", lambda: FLASK_PYTHON is not None,
          probed=AFTER),
    Setup("own program, by number", [], PAGE_START, {}, "page", takes_all=False, probed=AFTER),
    Setup("own program, by LISTEN_FDS", ["--ready", "notify"], f"{PYTHON} @SITE@/page.py", {}, "page.py"),
    Setup("gunicorn", [], GUNICORN_START, {"app.py": WSGI}, "app.py", has("gunicorn"), probed=AFTER),
    Setup("uvicorn", [], f"{UVICORN_PYTHON} @SITE@/server.py", {"app.py": ASGI, "server.py": UVICORN}, "app.py",
          lambda: UVICORN_PYTHON is not None, probed=AFTER),
    Setup("unicorn", ["--stop", "QUIT"], UNICORN_START,
          {"app.ru": RACK, "unicorn.rb": 'worker_processes 2\nlogger Logger.new(File::NULL)\n'}, "app.ru", has("unicorn"),
          probed=AFTER),
    # It closes connections that it has not heard from: it is given none.
    Setup("puma", ["--defer-accept"], PUMA_START, {"app.ru": RACK}, "app.ru", has("puma"), probed=AFTER),
    Setup("node", [], "node @SITE@/app.js", {"app.js": NODE}, "app.js", has("node"), probed=AFTER),
    # (it calls the system by itself, so no library can hold it back)
    Setup("go", [], "@SITE@/page-go", {}, "page-go", has("go"), probed=FROM_START),
    Setup("nginx", ["--stop", "QUIT", "--no-listen-fds", "--env", "NGINX={fds}"],
          NGINX_START, {"nginx.conf": NGINX, "index.html": "version @VERSION@\n", "slow": SLOW_PAGE}, "nginx.conf", has("nginx")),
    Setup("php-fpm", ["--stop", "QUIT", "--blocking", "--no-listen-fds", "--env", "FPM_SOCKETS={fpm}"],
          FPM_START, {"fpm.conf": FPM, "pool.conf": FPM_POOL, "app.php": PHP}, "fpm.conf", has("php-fpm8.2"), is_fastcgi=True),
    Setup("lighttpd", ["--stop", "INT"], "sh -c 'cd @SITE@ && exec lighttpd -D -f lighttpd.conf'",
          {"lighttpd.conf": LIGHTTPD.replace('"@SITE@"', 'var.CWD + "/"'), "index.html": "version @VERSION@\n", "slow": SLOW_PAGE},
          "lighttpd.conf", has("lighttpd")),
    Setup("haproxy", ["--stop", "USR1"], HAPROXY_START, {"haproxy.cfg": HAPROXY, "page.lua": HAPROXY_PAGE}, "haproxy.cfg",
          has("haproxy"), probed=AFTER),
    Setup("uwsgi", ["--no-listen-fds"], UWSGI_START, {"app.py": WSGI}, "app.py", has("uwsgi")),
]
# What guides alone need.
OTHERS = {"django": lambda: python_with("waitress", "django") is not None, "the command uvicorn": has("uvicorn")}
PACKAGES = [
    "python3-waitress", "python3-flask", "gunicorn", "uvicorn", "unicorn", "puma", "nodejs", "nginx-light", "lighttpd",
    "python3-django", "haproxy", "uwsgi", "uwsgi-plugin-python3", "golang-go", "php-fpm", "openssl",
]


def lay_out(setup: Setup, site: pathlib.Path, version: int, place: str = "", code: int = 200) -> None:
    """Writes the files of a set-up, those of the repository's own programs too."""
    site.mkdir(parents=True, exist_ok=True)
    for own in (OUT / "page", OUT / "page-go", PROGRAMS / "page.py"):
        if own.name == setup.needed:
            shutil.copy(own, site / ".new")
            (site / ".new").replace(site / own.name)
    setup.write(site, version, place, code)


def break_it(setup: Setup, site: pathlib.Path, how: str) -> None:
    """Lets the application not load, exit at its start, or hang at its start."""
    if how == "does not load":
        put(site / setup.needed, "this is no program {\n")
    elif setup.start:
        put(site / "start", {"exits": "#!/bin/sh\nexit 7\n", "hangs": "#!/bin/sh\nexec sleep 1000\n"}[how])
    else:
        texts = {"exits": "import sys\nsys.exit(0)\n", "hangs": "import time\ntime.sleep(1000)\n"}
        put(site / setup.needed, texts[how])

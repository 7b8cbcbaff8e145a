"""The page that rehearses without its module: a server on loopback gives its files, and each question of the page is
answered by the program, in a process."""
import http.server
import importlib.machinery
import importlib.util
import json
import pathlib
import shutil
import subprocess
import tempfile
import threading
from typing import Any

from gate.tally import ROOT

KINDS = {".html": "text/html", ".css": "text/css", ".js": "text/javascript"}
SECONDS = 300
# The page may ask nobody; this one asks its own server.
POLICY, ITS_OWN = "default-src 'none';", "default-src 'none'; connect-src 'self';"


def builder() -> Any:
    """The module of page/build."""
    loader = importlib.machinery.SourceFileLoader("page_build", str(ROOT / "page" / "build"))
    spec = importlib.util.spec_from_loader("page_build", loader)
    assert spec
    found = importlib.util.module_from_spec(spec)
    loader.exec_module(found)
    return found


def lay_out(folder: pathlib.Path) -> None:
    """The files of the page, of which the engine asks the server."""
    builder().lay_out(b"", folder)
    shutil.copy(ROOT / "page" / "tests" / "asking.js", folder / "engine.js")
    index = folder / "index.html"
    text = index.read_text()
    assert text.count(POLICY) == 1
    index.write_text(text.replace(POLICY, ITS_OWN))


def answered(program: str, asked: Any) -> dict[str, Any]:
    """What the program answers to words, with these files and this input."""
    with tempfile.TemporaryDirectory(prefix="page-asked-") as folder:
        for name, text in asked["files"]:
            # (any other name is that of no file, as it is in the module's system)
            if name and "/" not in name and name not in (".", ".."):
                (pathlib.Path(folder) / name).write_bytes(text.encode())
        how: dict[str, Any] = {"cwd": folder, "capture_output": True, "timeout": SECONDS}
        ended = subprocess.run([program, *asked["words"]], input=asked["input"].encode(), **how)
        return {"status": ended.returncode, "output": ended.stdout.decode(), "errors": ended.stderr.decode()}


class Asked:
    """The server, at its address, until it is closed."""

    def __init__(self, program: str, folder: pathlib.Path):
        self.program, self.folder = program, folder
        lay_out(folder)
        asked = self

        class Handler(http.server.BaseHTTPRequestHandler):
            def do_GET(self) -> None:
                file = asked.folder / self.path.partition("?")[0].lstrip("/")
                if file.parent == asked.folder and file.is_file():
                    asked.send(self, KINDS.get(file.suffix, "text/plain"), file.read_bytes())
                else:
                    self.send_error(404)

            def do_POST(self) -> None:
                given = json.loads(self.rfile.read(int(self.headers["Content-Length"])))
                asked.send(self, "application/json", json.dumps(answered(asked.program, given)).encode())

            def log_message(self, *_: Any) -> None:
                pass

        self.server = http.server.ThreadingHTTPServer(("127.0.0.1", 0), Handler)
        # (its end waits for what it has started)
        self.server.daemon_threads = False
        self.address = f"http://127.0.0.1:{self.server.server_address[1]}/"
        self.thread = threading.Thread(target=self.server.serve_forever)

    @staticmethod
    def send(handler: http.server.BaseHTTPRequestHandler, kind: str, body: bytes) -> None:
        try:
            handler.send_response(200)
            handler.send_header("Content-Type", f"{kind}; charset=utf-8")
            handler.send_header("Content-Length", str(len(body)))
            handler.end_headers()
            handler.wfile.write(body)
        except ConnectionError:
            # (the page was left meanwhile)
            pass

    def __enter__(self) -> "Asked":
        self.thread.start()
        return self

    def __exit__(self, *_: Any) -> None:
        self.server.shutdown()
        self.thread.join()
        self.server.server_close()

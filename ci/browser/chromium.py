"""A page in Chromium without a window, over its debugging protocol."""
import base64
import json
import os
import pathlib
import shutil
import socket
import struct
import subprocess
import tempfile
import time
import urllib.request
from collections.abc import Callable
from typing import Any

NAMES = ("chromium", "chromium-headless-shell", "google-chrome", "chromium-browser")
# How long anything may take here: on a busy machine a browser waits for a processor first.
SECONDS = 120.0
FLAGS = (
    "--headless", "--no-sandbox", "--disable-gpu", "--disable-dev-shm-usage", "--disable-extensions", "--no-first-run",
    "--disable-background-networking", "--disable-component-update", "--disable-sync", "--hide-scrollbars",
    "--remote-debugging-port=0", "--remote-allow-origins=*",
)


class BrowserFault(Exception):
    """The browser has not done what it was told."""


def chromium() -> str | None:
    """The path of a Chromium; None if the machine has none."""
    return next((found for name in NAMES if (found := shutil.which(name))), None)


def wait_for(what: str, found: Callable[[], Any], seconds: float = SECONDS) -> Any:
    """Waits until a question has an answer, and gives it."""
    deadline = time.monotonic() + seconds
    while not (answer := found()):
        if time.monotonic() > deadline:
            raise BrowserFault(f"after {seconds:.0f} s: {what}")
        time.sleep(0.05)
    return answer


class Socket:
    """The client's side of a web socket."""

    def __init__(self, address: str):
        host, path = address.removeprefix("ws://").split("/", 1)
        name, port = host.rsplit(":", 1)
        self.connection = socket.create_connection((name, int(port)), SECONDS)
        key = base64.b64encode(os.urandom(16)).decode()
        lines = [f"GET /{path} HTTP/1.1", f"Host: {host}", "Upgrade: websocket", "Connection: Upgrade"]
        lines += [f"Sec-WebSocket-Key: {key}", "Sec-WebSocket-Version: 13", "", ""]
        self.connection.sendall("\r\n".join(lines).encode())
        head = b""
        while b"\r\n\r\n" not in head:
            head += self.exactly(1)

    def exactly(self, count: int) -> bytes:
        found = b""
        while len(found) < count:
            more = self.connection.recv(count - len(found))
            if not more:
                raise BrowserFault("the browser has closed its connection")
            found += more
        return found

    def send(self, text: str) -> None:
        data, mask = text.encode(), os.urandom(4)
        length = len(data)
        if length < 126:
            head = bytes([0x81, 0x80 | length])
        elif length < 65536:
            head = bytes([0x81, 0x80 | 126]) + struct.pack(">H", length)
        else:
            head = bytes([0x81, 0x80 | 127]) + struct.pack(">Q", length)
        masked = bytes(byte ^ mask[i % 4] for i, byte in enumerate(data))
        self.connection.sendall(head + mask + masked)

    def receive(self) -> str:
        found = b""
        while True:
            first, second = self.exactly(2)
            length = second & 127
            if length == 126:
                length = struct.unpack(">H", self.exactly(2))[0]
            elif length == 127:
                length = struct.unpack(">Q", self.exactly(8))[0]
            found += self.exactly(length)
            if first & 128:
                return found.decode()

    def close(self) -> None:
        self.connection.close()


class Page:
    """A page: what is sent to it, what it requested, and what it complained of. To be closed."""

    def __init__(self, width: int = 1280, height: int = 900, environment: dict[str, str] | None = None):
        program = chromium()
        if not program:
            raise BrowserFault("no Chromium is installed")
        self.folder = pathlib.Path(tempfile.mkdtemp(prefix="page-browser-"))
        command = [program, *FLAGS, f"--user-data-dir={self.folder}", "about:blank"]
        quiet: dict[str, Any] = {"stdin": subprocess.DEVNULL, "stdout": subprocess.DEVNULL, "stderr": subprocess.DEVNULL}
        self.process = subprocess.Popen(command, env=environment, **quiet)
        self.requests: list[str] = []
        self.complaints: list[str] = []
        self.number = 0
        try:
            self.socket = Socket(self.address())
            for domain in ("Page", "Runtime", "Log", "Network", "Accessibility"):
                self.send(f"{domain}.enable")
            self.size(width, height)
        except BaseException:
            self.close()
            raise

    def address(self) -> str:
        """Where the page is told what to do."""
        file = self.folder / "DevToolsActivePort"

        def port() -> str:
            if self.process.poll() is not None:
                raise BrowserFault(f"the browser has ended with status {self.process.returncode}")
            words = file.read_text().split() if file.exists() else []
            return words[0] if len(words) > 1 else ""

        place = f"http://127.0.0.1:{wait_for('the browser does not listen', port)}/json"

        def page() -> str:
            with urllib.request.urlopen(place, timeout=SECONDS) as answer:
                return next((str(it["webSocketDebuggerUrl"]) for it in json.load(answer) if it["type"] == "page"), "")

        return str(wait_for("the browser has no page", page))

    def send(self, method: str, **parameters: Any) -> Any:
        """Tells the browser something, and gives its answer."""
        self.number += 1
        self.socket.send(json.dumps({"id": self.number, "method": method, "params": parameters}))
        while True:
            told = json.loads(self.socket.receive())
            if told.get("id") == self.number:
                if "error" in told:
                    raise BrowserFault(f"{method}: {told['error']}")
                return told["result"]
            self.note(told)

    def note(self, told: Any) -> None:
        """Keeps what the page requests and complains of."""
        method, parameters = told.get("method"), told.get("params", {})
        if method == "Network.requestWillBeSent":
            self.requests.append(parameters["request"]["url"])
        elif method == "Runtime.exceptionThrown":
            self.complaints.append(json.dumps(parameters["exceptionDetails"])[:600])
        elif method == "Log.entryAdded":
            self.complaints.append(json.dumps(parameters["entry"])[:600])
        elif method == "Runtime.consoleAPICalled":
            self.complaints.append(json.dumps(parameters["args"])[:600])

    def size(self, width: int, height: int, scheme: str = "light") -> None:
        """The size of the window, and whether the reader likes it dark."""
        self.send("Emulation.setDeviceMetricsOverride", width=width, height=height, deviceScaleFactor=1, mobile=width < 600)
        self.send("Emulation.setEmulatedMedia", features=[{"name": "prefers-color-scheme", "value": scheme}])

    def value(self, text: str) -> Any:
        """The value of an expression of JavaScript in the page."""
        found = self.send("Runtime.evaluate", expression=text, awaitPromise=True, returnByValue=True)
        if "exceptionDetails" in found:
            raise BrowserFault(json.dumps(found["exceptionDetails"])[:800])
        return found["result"].get("value")

    def becomes(self, text: str, seconds: float = SECONDS) -> Any:
        """Waits until an expression is true."""
        return wait_for(f"this is not so: {text}", lambda: self.value(f"!!({text})"), seconds)

    def go(self, address: str, ready: str = "document.readyState === 'complete'") -> None:
        """Opens an address, and waits until the page is ready."""
        before = self.value("performance.timeOrigin")
        self.send("Page.navigate", url=address)

        def is_there() -> bool:
            try:
                return bool(self.value(f"performance.timeOrigin !== {before} && document.body && ({ready})"))
            except BrowserFault:
                # (the page is being changed for the next)
                return False

        wait_for(f"{address} is not ready", is_there)

    def key(self, name: str, code: int, text: str = "") -> None:
        """Presses a key."""
        more = {"text": text} if text else {}
        self.send("Input.dispatchKeyEvent", type="keyDown", key=name, code=name, windowsVirtualKeyCode=code, **more)
        self.send("Input.dispatchKeyEvent", type="keyUp", key=name, code=name, windowsVirtualKeyCode=code)

    def choose(self, selector: str, files: list[pathlib.Path]) -> None:
        """Chooses files in a field for them, as a reader does."""
        root = self.send("DOM.getDocument")["root"]["nodeId"]
        field = self.send("DOM.querySelector", nodeId=root, selector=selector)["nodeId"]
        self.send("DOM.setFileInputFiles", files=[str(file) for file in files], nodeId=field)

    def picture(self, file: pathlib.Path) -> None:
        """Writes the whole page as a picture."""
        size = self.send("Page.getLayoutMetrics")["cssContentSize"]
        clip = {"x": 0, "y": 0, "width": size["width"], "height": size["height"], "scale": 1}
        found = self.send("Page.captureScreenshot", format="png", captureBeyondViewport=True, clip=clip)
        file.write_bytes(base64.b64decode(found["data"]))

    def tree(self) -> list[Any]:
        """The nodes that a screen reader sees."""
        return [node for node in self.send("Accessibility.getFullAXTree")["nodes"] if not node.get("ignored")]

    def __enter__(self) -> "Page":
        return self

    def __exit__(self, *_: Any) -> None:
        self.close()

    def close(self) -> None:
        """Ends the browser that this page started, and removes its folder."""
        try:
            self.send("Browser.close")
            self.socket.close()
        except (AttributeError, OSError, BrowserFault):
            pass
        try:
            self.process.wait(SECONDS / 4)
        except subprocess.TimeoutExpired:
            self.process.kill()
            self.process.wait()
        shutil.rmtree(self.folder, ignore_errors=True)

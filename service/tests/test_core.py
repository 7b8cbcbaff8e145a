"""The core of prefork-serve by itself: how long it is, what it imports, which files it opens, and what it starts."""
import os
import pathlib
import re
import signal
import socket
import subprocess
import tempfile
import unittest
from typing import Any

from kit import PROGRAMS, PYTHON, SERVICE, answer_of, built, free_address, until

SECONDS = 120
# The modules of ours, whatever the configuration has, and their lines together: these lines grow with no new thing that could be
# told by prefork-watch.
OURS = {
    "asking", "barrier", "blocks", "bounds", "burying", "changed", "chronicle", "commands", "configuration", "core", "counted", "door", "errors", "feed",
    "folder", "holding", "journal", "keeping", "last_lines", "lean", "leaving", "master", "packets", "patience", "places", "processes",
    "questions", "reading", "reasons", "records", "service", "sockets", "starting", "state", "stopping", "summary", "surviving", "systemd", "telling", "ticks", "titles",
    "trying", "watching", "words", "writing",
}
MOST_LINES = 5165
# Modules of Python that a core has no business with.
NEVER = {"tomllib", "pwd", "grp", "argparse", "html", "http", "email", "urllib.request", "difflib", "ssl", "asyncio", "logging", "multiprocessing", "sqlite3"}
# Those that others import, or that a simpler way replaces: they would take 2 MB.
HEAVY = {"ast", "dis", "_bz2", "_lzma", "datetime", "ctypes"}
# What Python runs before a program, if a user has it: it notes which program.
CUSTOMIZE = "import os, sys\nopen(os.environ['CUSTOMIZED'], 'a').write(' '.join(sys.orig_argv) + '\\n')\n"
# The files in the folder of a service that it opens, makes or removes.
OWN = re.compile(
    r"run|run/(\.prefork|serve\.pid|reasons|journal|(ctl|keeper|masters)\.sock|\.\d+|\.blocks|blocks|(config|next|accepted)\.toml|commands|workers|"
    r"traffic|errors|waiting|survivors(/.*)?|records(/\d+(/(from\.toml|to\.\d+\.toml|blocks\.\d+|(lost|died)\.\d+)?)?)?"
    r"|commands/(next|new|accepted|accepted\.files|late|ready|given\.toml|\d+\.\d+)|workers/\d+\.\d+\.\d+(\.ended)?|waiting/\d+(\.once)?|errors/\d+\.\d+\.\d+|traffic/.*)"
)
ELSEWHERE = re.compile(r"site\.toml|/dev/null|/proc/(\d+|self)/(stat|task/\d+/children|cmdline|environ|comm|fd/2)|\d+")
STARTED = {"prefork-keeper", "prefork-read", "prefork-watch", "master.py"}


class CoreTest(unittest.TestCase):
    @classmethod
    def setUpClass(cls) -> None:
        built()

    def setUp(self) -> None:
        room = tempfile.TemporaryDirectory(prefix="core-")
        self.addCleanup(room.cleanup)
        self.room = pathlib.Path(room.name)
        self.audit, self.said, self.blocks = self.room / "audit", self.room / "said", self.room / "blocks"
        self.blocks.mkdir()
        self.address, self.page = free_address(), free_address()
        (self.room / "site.toml").write_text(f'listeners = ["{self.address}"]\nworkers = 2\n[service]\nprogram = ["true"]\n')
        options = ["--prefork", PROGRAMS / "master.py", "--page", self.page, "--on-done", "/bin/true"]
        self.customized = self.room / "customized"
        (self.room / "sitecustomize.py").write_text(CUSTOMIZE)
        environment = {**os.environ, "AUDIT": str(self.audit), "BLOCKS": str(self.blocks)}
        environment |= {"PYTHONPATH": str(self.room), "CUSTOMIZED": str(self.customized)}
        with open(self.said, "a") as said:
            command = [PYTHON, PROGRAMS / "audited.py", *options, "site.toml"]
            self.serve: Any = subprocess.Popen(command, cwd=self.room, env=environment, stderr=said)
        self.addCleanup(self.end)
        self.assertTrue(until(lambda: "\ndone " in self.asked("HUP"), SECONDS), self.said.read_text())

    def end(self) -> None:
        self.serve.kill()
        self.serve.wait(SECONDS)

    def asked(self, word: str) -> str:
        try:
            with socket.socket(socket.AF_UNIX) as asker:
                asker.settimeout(SECONDS)
                asker.connect(str(self.room / "run" / "ctl.sock"))
                asker.sendall(f"{word}\n".encode())
                with asker.makefile() as answer:
                    return answer.read()
        except OSError:
            return ""

    def children(self, name: str) -> list[int]:
        found = []
        for text in pathlib.Path(f"/proc/{self.serve.pid}/task/{self.serve.pid}/children").read_text().split():
            try:
                found += [int(text)] if name in pathlib.Path(f"/proc/{text}/cmdline").read_text() else []
            except OSError:
                continue
        return found

    def live(self) -> None:
        """A life with all that happens to a core: words that work and that do not, questions, and the end of each process."""
        (self.blocks / "TTIN").write_text("1 m1 fork 1.1 2 : no-memory\nrolled-back cause 1 pid no-file\n")
        (self.blocks / "USR2").write_text("refused C1\n")
        for word in ("TTIN", "USR2", "USR1", "status", "status brief", "nonsense", "try HUP", ""):
            self.asked(word)
        self.assertTrue(until(lambda: "prefork_workers" in self.metrics(), SECONDS), self.said.read_text())
        for name in ("prefork-watch", "prefork-keeper", "supervise"):
            first = self.children(name)
            for process in first:
                os.kill(process, signal.SIGKILL)
            self.assertTrue(until(lambda: self.children(name) not in ([], first), SECONDS), self.said.read_text())
        self.assertTrue(until(lambda: "\ndone " in self.asked("HUP"), SECONDS), self.said.read_text())
        self.serve.send_signal(signal.SIGQUIT)
        self.assertEqual(self.serve.wait(SECONDS), 0, self.said.read_text())

    def metrics(self) -> str:
        try:
            return answer_of(self.page, "/metrics", SECONDS)
        except OSError:
            return ""

    def noted(self) -> list[tuple[str, str]]:
        return [(line.partition(" ")[0], line.partition(" ")[2]) for line in self.audit.read_text().splitlines()]

    def test_what_the_core_is_and_does(self) -> None:
        self.live()
        noted = self.noted()
        modules = [text.split(" ") for kind, text in noted if kind == "module"]
        ours = {name.rpartition(".")[2]: file for name, file in modules if name.startswith("prefork_service.")}
        self.assertEqual(set(ours), OURS)
        self.assertLessEqual(sum(len(pathlib.Path(file).read_text().splitlines()) for file in ours.values()), MOST_LINES)
        self.assertEqual((NEVER | HEAVY) & {name for name, _ in modules}, set())
        with self.subTest("ports"):
            bound = {text for kind, text in noted if kind in ("socket.bind", "socket.connect")}
            self.assertEqual({text for text in bound if not text.startswith(f"{self.room}/run/")}, set())
        with self.subTest("processes"):
            self.assertEqual({pathlib.Path(text).name for kind, text in noted if kind == "subprocess.Popen"}, STARTED)
        with self.subTest("files"):
            files = {text for kind, text in noted if kind in ("open", "os.remove", "os.rename", "os.mkdir", "os.rmdir")}
            self.assertEqual({file for file in files if not self.is_known(file)}, set())

    def test_what_others_add_to_python_is_in_none_of_its_processes(self) -> None:
        self.assertTrue(self.children("prefork-keeper") and self.children("prefork-watch"))
        customized = self.customized.read_text()
        self.assertIn("audited.py --prefork", customized)
        for name in ("--core", "prefork-keeper", "prefork-watch"):
            self.assertNotIn(name, customized)

    def is_known(self, file: str) -> bool:
        """Whether it is a file that the core may open."""
        if file.startswith((str(SERVICE / "prefork_service"), os.path.dirname(os.__file__), f"{PROGRAMS}/audited.py")):
            # (its own sources, and Python's)
            return True
        own = OWN.fullmatch(file.removeprefix(f"{self.room}/"))
        return bool(own or ELSEWHERE.fullmatch(file.removeprefix(f"{self.room}/")))


if __name__ == "__main__":
    unittest.main()

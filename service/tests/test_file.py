"""All of a service in its file, from outside: --check, --init, what the command line overrides, hooks, and secrets."""
import json
import os
import pathlib
import signal
import subprocess
import tempfile
import tomllib
import unittest
from typing import Any

from kit import BIN, PROGRAMS, PYTHON, built, free_address, until
from prefork_service.keys import KEYS
from prefork_service.options import arguments
from prefork_service.recipes import Told, setup_of
from prefork_service.beginning import text_of
from test_keys import WRONG

SECONDS = 60
SECRET = "hunter2"


class FileTest(unittest.TestCase):
    @classmethod
    def setUpClass(cls) -> None:
        built()

    def setUp(self) -> None:
        room = tempfile.TemporaryDirectory(prefix="file-")
        self.addCleanup(room.cleanup)
        self.room = pathlib.Path(room.name)
        self.folder, self.said, self.address = self.room / "run", self.room / "said", free_address()
        (self.room / "blocks").mkdir()
        self.environment = {**os.environ, "BLOCKS": str(self.room / "blocks")}

    def configure(self, table: str) -> None:
        (self.room / "site.toml").write_text(f'listeners = ["{self.address}"]\nworkers = 2\n[service]\n{table}')

    def served(self, *words: str) -> subprocess.CompletedProcess:
        command = [BIN / "prefork-serve", "--prefork", PROGRAMS / "master.py", *words]
        return subprocess.run(command, cwd=self.room, env=self.environment, capture_output=True, text=True, timeout=SECONDS)

    def checked(self, table: str, *words: str) -> tuple[int, str]:
        self.configure(table)
        found = self.served("--check", *words, "site.toml")
        self.assertFalse(self.folder.exists())
        return found.returncode, found.stdout + found.stderr

    def test_a_check_tells_all_of_it(self) -> None:
        status, said = self.checked('program = ["true"]\nthread = 4\nnice = 99\n[service.environment]\nA = 3\n')
        lines = [line.removeprefix("prefork-serve: ") for line in said.splitlines()]
        self.assertEqual((status, len(lines)), (1, 3), said)
        for line, begin in zip(lines, ("site.toml, line 5: service.thread ", "site.toml, line 6: service.nice is 99: ", "site.toml, line 8: service.environment.A ")):
            self.assertTrue(line.startswith(begin), line)
        self.assertEqual(self.checked('program = ["true"]\n'), (0, "site.toml: fits: 1 addresses, 2 workers\n"))

    def test_a_check_tells_each_key_that_is_wrong_and_starts_nothing(self) -> None:
        """All keys at once, each with a value of another kind. (ci/mistakes has a key that is given twice: the program finds it.)"""
        values = {name: kinds[0] for name, (kinds, _) in WRONG.items()}
        status, said = self.checked("".join(f"{name} = {value}\n" for name, value in values.items()))
        found = [line for line in said.splitlines() if not line.startswith(" ")]
        self.assertEqual((status, len(found)), (1, len(values)), said)
        for at, (name, line) in enumerate(zip(values, found), 4):
            self.assertTrue(line.startswith(f"prefork-serve: site.toml, line {at}: service.{name} is "), line)
            self.assertTrue(line.endswith(f": {KEYS[name].allowed} is allowed"), line)
        marker = self.room / "started"
        self.assertEqual(self.checked(f'program = ["touch", "{marker}"]\n')[0], 0)
        self.assertFalse(marker.exists())

    def test_a_check_finds_what_is_missing(self) -> None:
        for table, wanted in (
            ('program = ["no-such-program"]\n', "site.toml: no-such-program: it is in no folder of PATH\n"),
            ('program = ["./x"]\nfolder = "gone"\n', f"site.toml: folder: {self.room}/gone: No such file or directory\n"),
            ('program = ["true"]\nenvironment = { A = { file = "gone" } }\n', f"site.toml: A: {self.room}/gone: No such file or directory\n"),
            (f'wsgi = "m"\npython = "{PYTHON}-gone"\n', f"site.toml: {PYTHON}-gone: No such file or directory\n"),
            ("nice = 3\n", "site.toml has no command and no program, and the command line names none\n"),
            (f'program = ["true"]\n[service.groups.web]\nlistener = "{self.address}"\nprogram = ["/no/such"]\n', "site.toml: group web: /no/such: No such file or directory\n"),
        ):
            status, said = self.checked(table)
            self.assertEqual((status, said), (1, f"prefork-serve: {wanted}"))

    def test_options_of_adapters_that_no_worker_has(self) -> None:
        self.configure('program = ["true"]\n')
        found = self.served("--check", "--threads", "3", "site.toml")
        self.assertEqual(found.returncode, 2)
        self.assertIn("--threads is an option of --wsgi, and there is none", found.stderr)
        self.assertEqual(self.served("--check", "--stop", "INT", "site.toml").returncode, 0)
        wrong = self.served("--check", "--stop", "KILL", "site.toml")
        self.assertEqual((wrong.returncode, wrong.stderr), (1, "prefork-serve: site.toml: unknown signal: KILL; see --help\n"))

    def start(self, *words: str) -> Any:
        command = [BIN / "prefork-serve", "--prefork", PROGRAMS / "master.py", *words]
        with open(self.said, "w") as said:
            serve: Any = subprocess.Popen(command, cwd=self.room, env=self.environment, stderr=said)
        self.addCleanup(serve.wait, SECONDS)
        self.addCleanup(serve.send_signal, signal.SIGQUIT)
        self.assertTrue(until((self.folder / "accepted.toml").exists), self.said.read_text())
        return serve

    def ctl(self, *words: str) -> subprocess.CompletedProcess:
        return subprocess.run([BIN / "prefork-ctl", *words], cwd=self.room, capture_output=True, text=True, timeout=SECONDS)

    def test_what_the_command_line_overrides_is_said(self) -> None:
        self.configure('program = ["false"]\nstop = "INT"\nanswer_within = 9\n[service.hooks]\non-done = "true"\n')
        self.start("--stop", "QUIT", "--on-done", "false", "--answer-within", "8", "site.toml", "--", "true", "x")
        wanted = "the command line overrides program, stop, answer_within, hooks.on-done of site.toml, as long as this service runs"
        self.assertIn(f"prefork-serve: {wanted}\n", self.said.read_text())
        words = (self.folder / "commands" / "next").read_bytes().decode().split("\0")
        self.assertEqual(words[2:-1], ["--stop", "INT", "--stop", "QUIT", "--", "true", "x"])

    def test_hooks_are_those_of_the_file_that_runs(self) -> None:
        hook = self.room / "hook"
        hook.write_text('#!/bin/sh\necho "$0 $1" >>told\n')
        hook.chmod(0o755)
        self.configure('program = ["true"]\n')
        self.start("site.toml")
        self.configure('program = ["true"]\n[service.hooks]\non-done = "./hook"\n')
        self.assertEqual(self.ctl("HUP").returncode, 0)
        self.assertTrue(until((self.room / "told").exists))
        self.assertEqual((self.room / "told").read_text(), f"{self.room}/./hook on-done\n")
        self.configure('program = ["true"]\n[service.hooks]\non-done = "/no/such"\n')
        found = self.ctl("HUP")
        self.assertEqual(found.stdout, "word HUP\nrefused service-keys\n")
        self.assertIn("site.toml, line 6: service.hooks.on-done can't be started: /no/such: No such file or directory", found.stderr)

    def test_a_master_keeps_what_it_was_started_with(self) -> None:
        self.environment["HELP"] = "--answer-within <S>"
        self.configure('program = ["true"]\n')
        self.start("site.toml")
        self.configure('program = ["true"]\nanswer_within = 9\n')
        found = self.ctl("HUP")
        self.assertIn("service.answer_within is for the master: the next start of prefork-serve takes 9", found.stderr)
        self.configure('program = ["true"]\nready_within = 451\n')
        found = self.ctl("HUP")
        self.assertEqual(found.stdout, "word HUP\nrefused service-keys\n")
        self.assertIn("makes 481 seconds, and the master that runs waits for 480 seconds at most", found.stderr)

    def test_no_secret_is_shown(self) -> None:
        self.configure(f'program = ["true"]\n[service.environment]\nKEY = "{SECRET}"\n')
        self.start("--metrics", "metrics", "site.toml")
        told = [self.ctl(*words) for words in (("status",), ("--json", "status"), ("HUP",), ("plan", "HUP"))]
        for text in (f'KEY = "{SECRET}\n', f'KEY = {{ file = "{SECRET}", x = 1 }}\n', f'KEY = ["{SECRET}"]\n', f'"K {SECRET[:0]}" = "{SECRET}"\n'):
            self.configure(f'program = ["true"]\n[service.environment]\n{text}')
            told.append(self.ctl("HUP"))
        texts = [found.stdout + found.stderr for found in told] + [self.said.read_text(), (self.room / "metrics").read_text()]
        texts += [file.read_text() for file in (self.folder / "records").rglob("*") if file.is_file()]
        self.assertEqual([text for text in [*texts, (self.folder / "journal").read_text()] if SECRET in text], [])
        for file in self.folder.rglob("*"):
            if file.is_file() and SECRET in file.read_text():
                self.assertEqual((file.name in ("accepted.toml", "next"), file.stat().st_mode & 0o077), (True, 0), file)

    def test_a_file_is_written_for_a_command_line(self) -> None:
        words = ["--listen", self.address, "--workers", "3", "--stop", "INT", "--env", "A=b c", "--ready-within", "2.5", "--on-done", "true", "--", "true", "x y"]
        found = self.served("--init", *words)
        self.assertEqual((found.returncode, found.stdout), (0, "site.toml is written. prefork-serve site.toml starts the service.\n"))
        text = (self.room / "site.toml").read_bytes()
        wanted = {"program": ["true", "x y"], "ready_within": 2.5, "stop": "INT", "environment": {"A": "b c"}, "hooks": {"on-done": "true"}}
        self.assertEqual(tomllib.loads(text.decode()), {"listeners": [self.address], "workers": 3, "timeout": 60, "service": wanted})
        self.assertEqual(self.served("--check", "site.toml").returncode, 0)
        again = self.served("--init", "--", "true")
        self.assertEqual((again.returncode, again.stderr), (1, "prefork-serve: site.toml is there already: --init writes a new file alone\n"))
        self.assertEqual((self.room / "site.toml").read_bytes(), text)
        self.assertEqual(self.served("--init").returncode, 2)
        self.start("site.toml")

    def test_what_is_commented_out_is_right_too(self) -> None:
        for words in (["--init", "--", "true"], ["--init", "--wsgi", "m:a"]):
            text = text_of(arguments(words), "site.toml")
            lines = [line.removeprefix("# ") if " = " in line or line.startswith("# [") else line for line in text.splitlines()]
            found = "\n".join(lines).replace('"www-data"', '"root"').replace('"/usr/local/bin/tell-us"', '"true"')
            found = found.replace('ready = "accept"', 'ready = "probe"' + ('\nprobe = "/"' if "--wsgi" in words else ""))
            self.assertEqual(setup_of(found.encode(), Told()).faults, [], found)
            self.assertIn("limits", json.dumps(tomllib.loads(found)["service"]))


if __name__ == "__main__":
    unittest.main()

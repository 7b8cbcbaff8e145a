"""The command line of prefork-serve."""
import contextlib
import io
import os
import pathlib
import tempfile
import unittest
from unittest import mock

from kit import OUT, SERVICE, built
from prefork_service.options import arguments, fault_of, place_of, program_of, worker_command
from test_wsgi import PYTHON as PYTHON_WITH_WAITRESS

ACTIVATE = str(OUT / "prefork-activate")


class OptionsTest(unittest.TestCase):
    @classmethod
    def setUpClass(cls) -> None:
        built()

    def command(self, *words: str) -> list[str] | None:
        return worker_command(arguments(list(words)))

    def refused(self, *words: str) -> str:
        """What is said of a command line that is refused."""
        said = io.StringIO()
        with contextlib.redirect_stderr(said), self.assertRaises(SystemExit) as ended:
            self.command(*words)
        self.assertEqual(ended.exception.code, 2)
        return said.getvalue().splitlines()[-1]

    def test_a_program(self) -> None:
        self.assertEqual(self.command("a.toml", "--", "p", "--wsgi", "--", "x"), [ACTIVATE, "--", "p", "--wsgi", "--", "x"])

    def test_its_options(self) -> None:
        options = ["--ready", "notify", "--stop", "QUIT", "--env", "A=b c", "--env", "C=", "--finish", "5", "--blocking"]
        given = self.command(*options, "a.toml", "--", "p")
        self.assertEqual(given[:1] + given[-2:], [ACTIVATE, "--", "p"])
        pairs = " ".join(given[1:-2])
        for text in ("--ready notify", "--stop QUIT", "--env A=b c", "--env C=", "--finish 5", "--blocking"):
            self.assertIn(text, pairs)

    def test_a_probe(self) -> None:
        given = self.command("--ready", "probe", "/alive", "a.toml", "--", "p")
        self.assertEqual(given, [ACTIVATE, "--ready", "probe", "--probe", "/alive", "--", "p"])

    def test_none(self) -> None:
        self.assertIsNone(self.command("--ready-within", "5", "--finish", "1.5", "a.toml"))

    @unittest.skipUnless(PYTHON_WITH_WAITRESS, "no Python with waitress")
    def test_a_wsgi_application(self) -> None:
        given = self.command("--python", PYTHON_WITH_WAITRESS, "--threads", "8", "--wsgi", "m:a", "a.toml")
        self.assertEqual(given, [PYTHON_WITH_WAITRESS, str(SERVICE / "bin" / "prefork-wsgi"), "--threads", "8", "m:a"])

    @unittest.skipUnless(PYTHON_WITH_WAITRESS, "no Python with waitress")
    def test_a_probe_and_proxies_of_a_wsgi_application(self) -> None:
        start = ["--python", PYTHON_WITH_WAITRESS, "--wsgi", "m:a"]
        given = self.command(*start, "--ready", "probe", "/alive", "--trusted-proxy", "10.0.0.0/8", "--trusted-proxy", "unix", "a.toml")
        self.assertEqual(given[2:], ["--trusted-proxy", "10.0.0.0/8", "--trusted-proxy", "unix", "--probe", "/alive", "m:a"])
        for wrong, why in (
            (["--ready", "notify"], "argument --ready: of a MODULE:APP it takes probe PATH, not: notify"),
            (["--ready", "probe"], "argument --ready: of a MODULE:APP it takes probe PATH, not: probe"),
            (["--probe", "/"], "--probe is an option of a PROGRAM, and there is none"),
            (["--trusted-proxy", "10.0.0.1/8"], "argument --trusted-proxy: it takes an address, a network or unix: 10.0.0.1/8 has host bits set"),
        ):
            said = self.refused(*start, *wrong, "a.toml")
            self.assertTrue(said.endswith(f"prefork-serve: error: {why}"), said)
        said = self.refused("--ready", "notify", "a.toml")
        self.assertTrue(said.endswith("--ready is an option of a PROGRAM or --wsgi, and there is none"), said)

    @unittest.skipUnless(PYTHON_WITH_WAITRESS, "no Python with waitress")
    def test_an_access_log(self) -> None:
        """Its path is that of who types it, wherever workers start."""
        start = ["--python", PYTHON_WITH_WAITRESS, "--wsgi", "m:a"]
        given = self.command(*start, "--chdir", "/", "--access-log", "access.log", "--access-form", "json", "a.toml")
        self.assertEqual(given[2:], ["--access-log", os.path.join(os.getcwd(), "access.log"), "--access-form", "json", "m:a"])
        for wrong, why in (
            (["--access-log", "/nonexist/a.log"], "argument --access-log: /nonexist: No such file or directory"),
            (["--access-log", "/"], "argument --access-log: /: it is a folder"),
            (["--access-form", "common"], "argument --access-form: invalid choice: 'common' (choose from 'combined', 'json')"),
        ):
            said = self.refused(*start, *wrong, "a.toml")
            self.assertTrue(said.endswith(f"prefork-serve: error: {why}"), said)
        said = self.refused("--access-log", "x", "a.toml", "--", "true")
        self.assertTrue(said.endswith("--access-log is an option of --wsgi, and there is none"), said)

    def test_the_program_that_is_looked_for(self) -> None:
        for words, wanted in (
            (["a.toml", "--", "p", "x"], "p"), (["a.toml"], None), (["--env", "PATH=/x", "a.toml", "--", "p"], None),
            (["--env", "A=PATH=", "a.toml", "--", "p"], "p"),
        ):
            self.assertEqual(program_of(arguments(words)), wanted, words)

    def test_where_workers_start(self) -> None:
        with tempfile.TemporaryDirectory() as folder:
            room = pathlib.Path(folder).resolve()
            (room / "release").mkdir()
            (room / "current").symlink_to("release")
            (room / "release" / "app").touch(0o755)
            before = os.getcwd()
            self.addCleanup(os.chdir, before)
            os.chdir(room / "current")
            for shell, options, wanted in (
                (room / "current", [], room / "current"), (before, [], room / "release"), ("", [], room / "release"),
                ("current", [], room / "release"), (room / "current", ["--chdir", "x/.."], room / "current" / "x" / ".."),
                (room / "current", ["--chdir", str(room)], room),
            ):
                (room / "release" / "x").mkdir(exist_ok=True)
                with mock.patch.dict(os.environ, {"PWD": str(shell)}):
                    self.assertEqual(place_of(arguments([*options, "a.toml", "--", "p"])), str(wanted))
            os.chdir(room)
            self.assertIsNone(fault_of("./app", str(room / "current")))
            self.assertEqual(fault_of("./app"), "./app: No such file or directory")
            for wrong, why in (("gone", "No such file or directory"), ("release/app", "Not a directory")):
                said = self.refused("--chdir", wrong, "a.toml", "--", "p")
                self.assertTrue(said.endswith(f"--chdir: {room / wrong}: {why}"), said)

    def test_a_program_that_cannot_be_executed(self) -> None:
        with tempfile.NamedTemporaryFile() as file:
            for program, wanted in (
                ("sh", None), ("/bin/sh", None), ("no-such-program", "no-such-program: it is in no folder of PATH"),
                ("/no/such", "/no/such: No such file or directory"), (file.name, f"{file.name}: Permission denied"),
                ("/tmp", "/tmp: Permission denied"),
            ):
                self.assertEqual(fault_of(program), wanted)

    def test_what_is_refused(self) -> None:
        program = ["a.toml", "--", "p"]
        for words, text in (
            (["a.toml", "--"], "no PROGRAM"),
            (["--wsgi", "m", *program], "not both"),
            (["--stop", "TERM", "a.toml"], "--stop is an option of a PROGRAM"),
            (["--threads", "2", *program], "--threads"),
            (["--stop", "NO", *program], "unknown signal: NO"),
            (["--ready", "no", *program], "not: no"),
            (["--finish", "x", *program], "invalid number of seconds: x"),
            (["--finish", "x", "a.toml"], "argument --finish: invalid number of seconds: 'x'"),
            (["--ready-within", "0", "a.toml"], "argument --ready-within: invalid number of seconds: '0'"),
            (["--env", "x", *program], "NAME=VALUE"),
            (["--ready", "probe", *program], "needs --probe"),
            (["--python", "/nonexistent", "--wsgi", "m", "a.toml"], "/nonexistent"),
            ([], "give CONFIG, or a PROGRAM"),
            (["--listen", "127.0.0.1:80"], "give CONFIG, or a PROGRAM"),
            (["--listen", "127.0.0.1:80", *program], "not both"),
            (["--workers", "2", "--wsgi", "m", "a.toml"], "not both"),
            (["--reload-on-change", "/no/such", *program], "argument --reload-on-change: /no/such: No such file or directory"),
            (["--workers", "0", "--", "p"], "argument --workers: it must be at least 1"),
            (["--workers", "two", "--", "p"], "argument --workers: it must be at least 1"),
            (["a.toml", "b.toml"], "b.toml"),
        ):
            self.assertIn(text, self.refused(*words), words)


if __name__ == "__main__":
    unittest.main()

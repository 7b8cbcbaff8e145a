"""What runs by a configuration and a command line: the commands of groups, their environment, and what goes before what."""
import os
import pathlib
import pwd
import sys
import tempfile
import unittest

from kit import BIN, OUT
from prefork_service.environments import variables_in
from prefork_service.configuration import LAST, Configuration, file_of
from prefork_service.folder import write_private
from prefork_service.recipes import Recipe, Runs, Setup, Told, setup_of

SERVED = 'listeners = ["127.0.0.1:1"]\nworkers = 2\n'
ACTIVATE, WSGI = str(OUT / "prefork-activate"), str(BIN / "prefork-wsgi")


class SettingsTest(unittest.TestCase):
    def setUp(self) -> None:
        room = tempfile.TemporaryDirectory(prefix="settings-")
        self.addCleanup(room.cleanup)
        self.room = pathlib.Path(room.name)

    def found(self, text: str, before: str = SERVED, **told: object) -> Setup:
        made = Told(**{"place": str(self.room), **told})  # type: ignore[arg-type]
        setup = setup_of(f"{before}[service]\n{text}".encode(), made)
        self.assertEqual(setup.faults, [])
        return setup

    def one(self, text: str, **told: object) -> Recipe:
        setup = self.found(text, **told)
        self.assertEqual(len(setup.recipes), 1)
        return setup.recipes[0]

    def test_a_program_and_its_options(self) -> None:
        text = 'program = ["p", "--x", ""]\nready = "probe"\nprobe = "/a"\nready_within = 0.5\nfinish = 7\nstop = "SIGQUIT"\n' \
            'usr1 = "USR1"\nlisten_fds = false\nblocking = true\nprobe_within = 2\nprobe_limit = 1e1\n'
        words = list(self.one(text).words)
        self.assertEqual((words[0], words[-4:]), (ACTIVATE, ["--", "p", "--x", ""]))
        wanted = "--ready probe --ready-within 0.5 --finish 7 --probe /a --probe-within 2 --probe-limit 10 --stop SIGQUIT --usr1 USR1 --blocking"
        self.assertEqual(words[1:-4], [*wanted.split(), "--no-listen-fds"])
        self.assertEqual([*self.one('program = ["p"]\nlisten_fds = true\nblocking = false\n').words], [ACTIVATE, "--", "p"])

    def test_a_wsgi_application(self) -> None:
        text = 'wsgi = "m:a"\nready = "probe"\nprobe = "/a"\nthreads = 8\ntimeout = 2.5\nkeep = 9\ntrusted_proxy = ["10.0.0.0/8", "unix"]\nwarm = ["/", "/b"]\nafter_fork = ["m:f"]\n'
        words = list(self.one(text).words)
        self.assertEqual((words[:2], words[-1]), ([sys.executable, WSGI], "m:a"))
        wanted = "--probe /a --threads 8 --timeout 2.5 --keep 9 --trusted-proxy 10.0.0.0/8 --trusted-proxy unix --warm / --warm /b --after-fork m:f"
        self.assertEqual(words[2:-1], wanted.split())
        one = self.one('wsgi = "m:a"\npreload = true\nafter_load = ["m:l"]\npython = "venv/bin/python"\n')
        self.assertEqual([*one.words], [f"{self.room}/venv/bin/python", WSGI, "--after-load", "m:l", "--preloader", "m:a"])
        self.assertIs(one.runs, Runs.PRELOADED)
        self.assertEqual([*self.one('program = ["p", "{fd}"]\npreload = true\n').words], ["p", "{fd}"])

    def test_an_environment(self) -> None:
        (self.room / "env").write_text("# x\nexport A=1\nB='two words'\nC=3\nD=\n")
        one = self.one('program = ["p"]\nenvironment_files = ["env"]\n[service.environment]\nC = "4"\nE = { file = "secret" }\nF = "tcp://{fd}"\nG = "{x}"\n')
        self.assertEqual(dict(one.variables), {"A": "1", "B": "two words", "C": "4", "D": "", "G": "{x}"})
        self.assertEqual(one.secrets, (("E", f"{self.room}/secret"),))
        # (what names sockets is filled in by the adapter, and is no secret)
        self.assertEqual(one.words[1:3], ("--env", "F=tcp://{fd}"))
        self.assertEqual(dict(self.one('wsgi = "m"\n[service.environment]\nF = "{fd}"\n').variables), {"F": "{fd}"})
        secret = self.one('program = ["p"]\nenvironment_files = ["env"]\n[service.environment]\nA = { file = "/a" }\n')
        self.assertNotIn("A", dict(secret.variables))
        self.assertNotIn("hunter2", repr(self.found('program = ["p"]\nenvironment = { KEY = "hunter2" }\n')))

    def test_files_of_variables(self) -> None:
        for text, wanted in (("A", "line 1: NAME=VALUE"), ("\n\nA B=1", "line 3: NAME"), ("A='x", "line 1: the quotation mark of A"), ("LISTEN_FDS=3", "line 1: LISTEN_FDS is a variable that the service sets")):
            with self.assertRaisesRegex(ValueError, wanted):
                variables_in(text)
        for name, text in (("none", None), ("wrong", "hunter2\n"), ("bytes", b"\xff")):
            if text is not None:
                (self.room / name).write_bytes(text.encode() if isinstance(text, str) else text)
            setup = setup_of(f'{SERVED}[service]\nprogram = ["p"]\nenvironment_files = ["{name}"]\n'.encode(), Told(place=str(self.room)))
            self.assertEqual(len(setup.faults), 1)
            self.assertIn(f"environment_files: {self.room}/{name}", setup.faults[0].text)
            self.assertNotIn("hunter2", setup.faults[0].text)
        kept = {f"{self.room}/none": "A=kept\n"}
        setup = setup_of(f'{SERVED}[service]\nprogram = ["p"]\nenvironment_files = ["none"]\n'.encode(), Told(place=str(self.room)), kept)
        self.assertEqual((setup.recipes[0].variables, setup.files), ((("A", "kept"),), kept))

    def test_groups_have_their_own(self) -> None:
        groups = '[[groups]]\nlisteners = ["/a", "/b"]\nworkers = 2\n[[groups]]\nlisteners = ["/c"]\n[[groups]]\nlisteners = ["/d"]\nworkers = 3\n'
        setup = self.found('wsgi = "m:a"\nthreads = 2\nnice = 4\nfolder = "x"\nenvironment = { A = "1", B = "2" }\n'
                           '[service.groups.web]\nlistener = "/c"\nprogram = ["p"]\nstop = "INT"\nfolder = "/y"\nenvironment = { B = "3", C = "4" }\n', groups)
        first, second, third = setup.recipes
        self.assertEqual([one.last for one in setup.recipes], [1, 2, LAST])
        self.assertEqual([one.name for one in setup.recipes], ["", "web", ""])
        self.assertEqual((first.words, first.nice, first.folder, dict(first.variables)), (third.words, 4, f"{self.room}/x", {"A": "1", "B": "2"}))
        self.assertEqual((second.words, second.nice, second.folder), ((ACTIVATE, "--stop", "INT", "--", "p"), 4, "/y"))
        self.assertEqual(dict(second.variables), {"A": "1", "B": "3", "C": "4"})
        self.assertEqual([Configuration(groups=setup.groups()).group_of(number) for number in (0, 1, 2, 3, 99)], ["", "", "web", "", ""])

    def test_groups_with_the_same_are_one(self) -> None:
        groups = '[[groups]]\nlisteners = ["/a"]\n[[groups]]\nlisteners = ["/c"]\n'
        self.assertEqual(self.found('program = ["p"]\n', groups).recipes[0].last, LAST)

    def test_a_command_has_settings_too(self) -> None:
        one = self.found('nice = 3\nready_within = 5\nenvironment = { A = "b" }\n', f'command = ["c", "d"]\n{SERVED}').recipes[0]
        self.assertEqual((one.words, one.runs, one.nice, one.variables, one.seconds()), (("c", "d"), Runs.COMMAND, 3, (("A", "b"),), 5))

    def test_the_command_line_goes_before_the_file(self) -> None:
        text = 'program = ["p"]\nstop = "INT"\nfolder = "/x"\nready_within = 5\n'
        setup = self.found(text, of_program=("--stop", "QUIT", "--no-listen-fds"), folder="/y", program=("q", "r"), ready_within=9.0)
        one = setup.recipes[0]
        self.assertEqual(one.words, (ACTIVATE, "--ready-within", "5", "--stop", "INT", "--stop", "QUIT", "--no-listen-fds", "--", "q", "r"))
        self.assertEqual((one.folder, one.ready_within), ("/y", 9.0))
        self.assertEqual(setup.overridden, ["program", "folder", "stop"])
        wsgi = self.found(text, wsgi="m:b", of_wsgi=("--threads", "3"), python="/py")
        self.assertEqual(wsgi.recipes[0].words, ("/py", WSGI, "--ready-within", "5", "--threads", "3", "m:b"))
        self.assertEqual(wsgi.overridden, ["program"])

    def test_without_a_table_all_is_as_it_was(self) -> None:
        told = Told(command=("adapter", "p"), runs=Runs.PROGRAM, looked_for="p", of_program=("--stop", "INT"))
        for text in (SERVED, f"{SERVED}[service]\n", f"{SERVED}command = []\n", f"{SERVED}command = [1]\n", "workers = ", ""):
            self.assertEqual([one.words for one in setup_of(text.encode(), told).recipes], [("adapter", "p")])
        own = setup_of(f'{SERVED}command = ["c"]\n'.encode(), told).recipes[0]
        self.assertEqual((own.words, own.runs, own.program), (("c",), Runs.COMMAND, "c"))
        self.assertEqual(setup_of(SERVED.encode(), Told()).recipes, ())

    @unittest.skipIf(os.geteuid(), "only root")
    def test_another_user(self) -> None:
        nobody = pwd.getpwnam("nobody")
        one = self.one('program = ["p"]\nuser = "nobody"\nenvironment = { HOME = "/x" }\n')
        wanted = ("--", "setpriv", f"--reuid={nobody.pw_uid}", f"--regid={nobody.pw_gid}", "--init-groups", "--inh-caps=-all", "--", "p")
        self.assertEqual(one.words[1:], wanted)
        self.assertEqual(dict(one.variables), {"HOME": "/x", "USER": "nobody", "LOGNAME": "nobody"})
        self.assertEqual(self.one('program = ["p"]\nuser = "root"\n').words[1:], ("--", "p"))
        self.assertEqual(self.one('program = ["p"]\ngroup = "daemon"\n').words[2:5], ("setpriv", "--regid=1", "--clear-groups"))
        self.assertEqual(self.one('wsgi = "m"\nuser = "nobody"\ngroup = "daemon"\n').words[2:-1], ("--user", "nobody", "--group", "daemon"))


class FileTest(unittest.TestCase):
    def test_without_settings_it_is_the_command(self) -> None:
        self.assertEqual(file_of([Recipe(("a", "b")).group()], [["a", "b"]], ["X=y"]), b"X=y\0a\0b\0")
        self.assertEqual(file_of([], []), b"false\0")

    def test_sections(self) -> None:
        recipes = [
            Recipe(("a", ""), last=1, folder="/f", variables=(("A", "b\nc"),), secrets=(("S", "/s"),), nice=3, limits=((7, 1, -1),)),
            Recipe(("shim",), Runs.PRELOADED, variables=(("A", "x"),)),
        ]
        text = file_of([one.group() for one in recipes], [one.words for one in recipes], ["X=y"])
        wanted = "X=y|\1workers 1|\1folder /f|\1set A=b\nc|\1read S=/s|\1nice 3|\1limit 7 1 -1|\1command 2|a||\1workers 4294967295|\1command 1|shim|"
        self.assertEqual(text.decode().replace("\0", "|"), wanted)
        self.assertEqual(recipes[1].group().loading(), b"\1set A=x\0\1command 1\0shim\0")

    def test_nobody_else_reads_it(self) -> None:
        with tempfile.TemporaryDirectory() as room:
            file = pathlib.Path(room) / "x"
            file.write_text("before")
            file.chmod(0o644)
            write_private(file, b"text")
            self.assertEqual((file.stat().st_mode & 0o777, file.read_bytes()), (0o600, b"text"))


if __name__ == "__main__":
    unittest.main()

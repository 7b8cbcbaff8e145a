"""Commands of generations, and what a worker's launcher does with them."""
import json
import os
import pathlib
import resource
import selectors
import subprocess
import tempfile
import tomllib
import types
import unittest
from typing import Any

from kit import BIN, OUT, built, until
from prefork_service.commands import Commands
from prefork_service.configuration import Configuration, configuration_in, file_of
from prefork_service.places import SHIM
from prefork_service.preloading import Preloading
from prefork_service.reader import EMPTY, HAS_KEYS, HAS_PID, NO_LISTENERS, PID_OF_MASTER, SiteFile, parted
from prefork_service.recipes import Recipe, Runs, Told, setup_of
from prefork_service.refusing import mistake_of, refusal_of
from prefork_service.serve import fall_back


def words_of(file: pathlib.Path) -> list[str]:
    return file.read_bytes().decode().split("\0")[:-1]


class PartedTest(unittest.TestCase):
    def test_the_command_is_taken_out(self) -> None:
        text = 'command = ["a b", "\\"é\\u007f"] # x\nworkers = 2\n[[groups]]\nlisteners = ["127.0.0.1:1"]\nworkers = 1\n'
        rest, found = parted(text.encode()), setup_of(text.encode(), Told())
        self.assertEqual([*found.recipes[0].words], ["a b", '"é\x7f'])
        wanted = tomllib.loads(text)
        del wanted["command"]
        self.assertEqual(tomllib.loads(rest.decode()), wanted)

    def test_texts_stay_the_same_text(self) -> None:
        text = b'command = ["a"]\npid = "/tmp/\\u0001\\\\\\"\\u007f\\U0001f600"\n'
        self.assertEqual(tomllib.loads(parted(text).decode())["pid"], '/tmp/\x01\\"\x7f\U0001f600')

    def test_what_the_master_is_to_refuse_stays_as_it_is(self) -> None:
        wrong = [
            b"\xff", b"workers =", b"workers = 1", b"command = []", b"command = 1", b'command = [""]', b'command = ["a", 1]',
            b'command = ["\\u0000"]', b'command = ["%s"]' % (b"x" * 256), b"command = [%s]" % b", ".join([b'"a"'] * 17),
            b"command = " + b"[" * 5000, b"\0", b"\xef\xbb\xbf[[[",
        ]
        for text in wrong:
            self.assertEqual((parted(text), setup_of(text, Told()).recipes), (text, ()), text)

    def test_what_the_master_is_to_refuse_is_refused_without_the_command_too(self) -> None:
        for text in ('workers = 1.5', 'workers = 2026-01-01', 'workers = 07:30:00', 'workers = [inf, -0.25]'):
            rest = parted(f'{text}\ncommand = ["a"]\n'.encode()).decode()
            self.assertEqual(tomllib.loads(rest), tomllib.loads(text), text)

    def test_what_is_for_the_service_is_for_nobody_else(self) -> None:
        for text in (
            'workers = 2\n[service]\nwsgi = "a:b"\nready_within = 0.5\n[service.environment]\nKEY = "hunter2"\n',
            'workers = 2\nservice = { environment = { KEY = "hunter2" } }\n',
            'workers = 2\n[service]\nwsgi = "a:b"\nenvironment.KEY = "hunter2\n', 'service.environment.KEY = "hunter2\n',
            '["service"]\nenvironment = { KEY = "hunter2", KEY = "hunter2" }\n', "[service.x\nhunter2",
        ):
            rest = parted(text.encode())
            self.assertNotIn(b"hunter2", rest)
            try:
                self.assertEqual(tomllib.loads(rest.decode()), {"workers": 2})
            except tomllib.TOMLDecodeError:
                self.assertRaises(tomllib.TOMLDecodeError, tomllib.loads, text)
        self.assertEqual(parted(b'service = "x"\n'), b'service = "x"\n')


class CommandsTest(unittest.TestCase):
    def setUp(self) -> None:
        room = tempfile.TemporaryDirectory(prefix="commands-")
        self.addCleanup(room.cleanup)
        self.room = pathlib.Path(room.name)
        self.config, self.place = self.room / "site.toml", self.room / "commands"
        self.configure('command = ["one"]\nworkers = 1\n')
        self.commands = self.made()
        self.commands.begin()

    def made(self, default: list[str] | None = None, runs: Runs = Runs.PROGRAM) -> Commands:
        self.told = Told(tuple(default), runs, tuple(default)) if default else Told()
        return Commands(types.SimpleNamespace(path=self.room), str(self.config), self.read())

    def read(self) -> Configuration:
        """What prefork-read would say of the file."""
        said = json.dumps(SiteFile(self.config, self.told).configuration().as_json())
        return configuration_in(json.loads(said))

    def change(self, running: str) -> None:
        self.commands.change(running, self.read())

    def configure(self, text: str) -> None:
        self.config.write_text(text)

    def start(self, generation: str) -> list[str]:
        """A worker's start, as prefork-launch does it."""
        file = self.place / generation
        if not file.exists():
            os.link(self.place / "next", file)
        return words_of(file)

    def test_a_reload_that_is_done(self) -> None:
        self.assertEqual(self.start("1.1"), ["one"])
        self.configure('command = ["two"]\nworkers = 2\n')
        self.change("1.1")
        self.assertEqual((self.start("1.2"), self.start("1.1")), (["two"], ["one"]))
        self.assertEqual(self.commands.next.read_text(), '"workers" = 2\n')
        self.commands.settle("done cause none pid no-file")
        self.assertEqual(self.commands.now.read_text(), '"workers" = 2\n')
        self.assertEqual(sorted(file.name for file in self.place.iterdir()), ["1.2", "next"])
        self.assertEqual(self.start("1.2"), ["two"])

    def test_each_generation_has_the_addresses_of_its_own_configuration(self) -> None:
        text = 'command = ["one"]\nlisteners = [%s]\nworkers = 1\n'
        self.configure(text % '"127.0.0.1:1", "127.0.0.1:2"')
        self.commands = self.made()
        self.commands.begin()
        self.assertEqual(self.start("1.1"), ["PREFORK_ADDRESSES=127.0.0.1:1 127.0.0.1:2", "one"])
        self.configure(text % '"127.0.0.1:3", "127.0.0.1:1"')
        self.change("1.1")
        new, old = "PREFORK_ADDRESSES=127.0.0.1:3 127.0.0.1:1", "PREFORK_ADDRESSES=127.0.0.1:1 127.0.0.1:2"
        self.assertEqual((self.start("1.2")[0], self.start("1.1")[0]), (new, old))
        self.commands.settle("rolled-back cause 2 pid no-file")
        self.assertEqual(words_of(self.place / "next")[0], old)
        groups = '[[groups]]\nlisteners = ["/b"]\nworkers = 1\n[[groups]]\nlisteners = ["/a"]\nworkers = 1\n'
        self.configure(f'command = ["one"]\n{groups}')
        self.change("1.1")
        self.assertEqual(self.start("1.2")[0], "PREFORK_ADDRESSES=/b /a")

    def test_late_and_ready_workers_are_noted_while_a_generation_is_tried(self) -> None:
        self.start("1.1")
        for report in ("done cause none pid no-file", "rolled-back cause 2 pid no-file"):
            for file in (self.place / "late", self.place / "ready"):
                self.assertFalse(file.exists())
            self.change("1.1")
            for file in (self.place / "late", self.place / "ready"):
                self.assertEqual(file.read_bytes(), b"")
                file.write_text("1.2\n")
            self.commands.settle(report)
        self.change("1.1")
        self.commands.clear()
        self.assertFalse(self.place.exists())

    def test_a_generation_that_was_rolled_back_is_forgotten(self) -> None:
        self.start("1.1")
        for command in ("two", "three"):
            self.configure(f'command = ["{command}"]\n')
            self.change("1.1")
            self.assertEqual(self.start("1.2"), [command])
            self.commands.settle("rolled-back cause 2 pid no-file")
            self.assertEqual((self.start("1.1"), words_of(self.place / "next")), (["one"], ["one"]))
        self.assertEqual(self.commands.now.read_text(), '"workers" = 1\n')

    def test_a_worker_that_takes_its_command_after_it_was_told_to_quit(self) -> None:
        self.start("1.1")
        for command in ("two", "three"):
            self.configure(f'command = ["{command}"]\n')
            self.change("1.1")
            self.commands.settle("rolled-back cause 2 pid no-file")
            self.assertEqual(self.start("1.2"), ["one"])
        self.configure('command = ["four"]\n')
        self.change("1.1")
        self.assertEqual((self.start("1.2"), self.start("1.1")), (["four"], ["one"]))
        self.commands.settle("done cause none pid no-file")
        self.assertEqual((self.start("1.2"), self.start("1.3")), (["four"], ["four"]))

    def test_which_side_of_a_degraded_reload_runs(self) -> None:
        for side, wanted in (("old", "one"), ("target", "two")):
            self.configure('command = ["two"]\n')
            self.change("1.1")
            self.commands.settle(f"degraded {side} 1 cause 2 pid no-file")
            self.assertEqual(words_of(self.place / "next"), [wanted])

    def test_a_master_that_starts_again_has_the_command_that_ran(self) -> None:
        self.configure('command = ["two"]\n')
        self.change("1.1")
        self.start("1.2")
        self.commands.settle("lost")
        self.commands.begin()
        self.assertEqual(self.start("1.1"), ["one"])
        self.change("1.1")
        self.commands.settle("done cause none pid no-file")
        self.commands.begin()
        self.assertEqual(self.start("1.1"), ["two"])

    def test_a_word_that_changes_nothing_settles_nothing(self) -> None:
        self.start("1.1")
        self.commands.settle("done cause none pid no-file")
        self.assertEqual((self.start("1.1"), words_of(self.place / "next")), (["one"], ["one"]))

    def test_preloaders_have_names_of_their_own(self) -> None:
        """The name of a generation comes again after one that was rolled back. Its preloader does not."""
        self.configure("workers = 1\n")
        commands = self.commands = self.made(["program"], Runs.PRELOADER)
        commands.preloading = Preloading(selectors.DefaultSelector(), types.SimpleNamespace(path=self.room), 1.0)
        self.addCleanup(commands.preloading.end)
        commands.begin()

        def socket_of(generation: str) -> str:
            program, place = self.start(generation)
            self.assertEqual(program, str(SHIM))
            return place.removeprefix(f"{self.room}/")

        self.assertEqual(socket_of("1.1"), "preloader.1")
        for number in (2, 3):
            self.change("1.1")
            self.assertEqual((socket_of("1.2"), socket_of("1.1")), (f"preloader.{number}", "preloader.1"))
            commands.settle("rolled-back cause 2 pid no-file")
            # One that was late is forked by the preloader that runs, and none by the one that was given up.
            self.assertEqual(socket_of("1.3"), "preloader.1")
            self.assertEqual([file.name for file in self.room.glob("preloader.*")], ["preloader.1"])
        # A master that is started again has the preloader, and so the version, that ran.
        commands.begin()
        self.assertEqual(socket_of("1.1"), "preloader.1")
        self.change("1.1")
        self.assertEqual(socket_of("1.2"), "preloader.4")
        commands.settle("done cause none pid no-file")
        self.assertEqual((socket_of("1.2"), socket_of("1.3")), ("preloader.4", "preloader.4"))
        self.assertEqual([file.name for file in self.room.glob("preloader.*")], ["preloader.4"])
        # A configuration with a command has no preloader, and the one after it a new one.
        self.configure('command = ["one"]\nworkers = 1\n')
        self.change("1.2")
        self.assertEqual(self.start("1.3"), ["one"])
        commands.settle("done cause none pid no-file")
        self.assertEqual([*self.room.glob("preloader.*")], [])
        self.configure("workers = 1\n")
        self.change("1.3")
        self.assertEqual(socket_of("1.4"), "preloader.5")
        commands.settle("done cause none pid no-file")
        self.assertEqual(socket_of("1.4"), "preloader.5")

    def test_the_program_of_the_command_line_is_for_configurations_without_a_command(self) -> None:
        commands = self.commands = self.made(["program"])
        commands.begin()
        self.assertEqual(words_of(self.place / "next"), ["one"])
        self.configure("workers = 1\n")
        self.change("1.1")
        self.assertEqual(words_of(self.place / "next"), ["program"])

    def test_without_any_command_no_worker_starts(self) -> None:
        self.configure("workers = 1\n")
        self.change("1.1")
        self.assertEqual(words_of(self.place / "next"), ["false"])

    def test_what_was_accepted_is_kept(self) -> None:
        self.commands.accept()
        first = self.config.read_text()
        self.configure("listeners = [")
        self.change("1.1")
        self.assertTrue(self.commands.has_changed())
        self.commands.settle("refused C1")
        # A master that is started again.
        self.commands.accept()
        self.assertEqual(self.commands.accepted.read_text(), first)
        self.configure('command = ["two"]\nworkers = 2\n')
        self.change("1.1")
        self.commands.settle("done cause none pid no-file")
        self.assertEqual(self.commands.accepted.read_text(), 'command = ["two"]\nworkers = 2\n')
        self.assertFalse(self.commands.has_changed())

    def test_a_start_after_a_kill_has_what_was_accepted(self) -> None:
        self.commands.accept()
        self.configure("listeners = [")
        later = self.made()
        self.assertEqual(later.current.groups, ())
        site = SiteFile(self.config, Told())
        self.assertTrue(fall_back(site, later))
        self.assertEqual((list(later.current.groups[0].command), later.now.read_text()), (["one"], '"workers" = 1\n'))
        later.accept()
        self.assertTrue(later.has_changed())
        later.clear()
        self.assertFalse(fall_back(site, self.made()))

    def test_a_copy_that_cannot_be_written_ends_nothing(self) -> None:
        self.commands.accepted.mkdir()
        self.commands.accept()
        self.assertFalse(self.commands.has_changed())
        self.commands.accepted.rmdir()

    def test_a_pid_of_the_master_is_seen(self) -> None:
        self.configure('command = ["one"]\nlisteners = []\n')
        self.change("1.1")
        self.assertIsNone(self.read().refusal)
        self.configure('command = ["one"]\npid = "/tmp/x"\n')
        self.change("1.1")
        self.assertEqual(self.read().refusal, (HAS_PID, PID_OF_MASTER))
        self.configure("pid = [")
        self.change("1.1")
        self.assertIsNone(self.read().refusal)

    def test_an_empty_configuration_is_seen(self) -> None:
        for text in ("", "# soon\n", "workers = 2\n", 'command = ["one"]\n'):
            self.configure(text)
            self.change("1.1")
            self.assertEqual(self.read().refusal, (NO_LISTENERS, EMPTY), text)
        self.configure('[[groups]]\nlisteners = ["127.0.0.1:1"]\nworkers = 1\n')
        self.change("1.1")
        self.assertIsNone(self.read().refusal)

    def test_a_key_of_the_service_that_is_wrong_is_refused(self) -> None:
        served = 'listeners = ["127.0.0.1:1"]\n'
        self.configure(f'{served}[service]\nwsgi = "a:b"\nthreads = "8"\nthread = 1\n[service.environment]\nCOLOUR = 3\n')
        self.change("1.1")
        report, why = self.read().refusal or ("", "")
        self.assertEqual(report, HAS_KEYS)
        begin = f'{self.config}, line 4: service.threads is "8": a whole number from 1 to 1024 is allowed'
        self.assertEqual(why, f"{begin}; and 2 more, which prefork-serve --check {self.config} says")
        self.assertEqual(len(SiteFile(self.config, self.told).faults()), 3)
        for text in (served, f"{served}[service]\n", f'{served}[service]\nwsgi = "a:b"\n'):
            self.configure(text)
            self.change("1.1")
            self.assertIsNone(self.read().refusal, text)

    def test_a_pipe_is_no_configuration(self) -> None:
        self.config.unlink()
        os.mkfifo(self.config)
        self.change("1.1")
        self.assertEqual((self.commands.proposed.for_master, self.commands.next.exists()), (b"", False))
        self.assertTrue(self.commands.has_changed())

    def test_why_the_master_refuses_a_configuration(self) -> None:
        program = self.room / "master"
        program.write_text("#!/bin/sh\necho \"$@\"; echo prefork: config C1 >&2; exit 1\n")
        program.chmod(0o755)
        self.assertEqual(refusal_of(str(program), self.config), "prefork: config C1")
        self.assertIsNone(refusal_of("true", self.config))
        self.assertEqual(refusal_of("/no/master", self.config), "/no/master: No such file or directory")

    def test_what_a_refusal_says_of_the_file(self) -> None:
        file = "  --from site.toml, line 4: workrs = 1\n"
        codes = "  config: a file is refused\n    Correct it.\n  C5: an address is refused\n    Its number.\n  A3: no port\n    1 to 65535.\n"
        for refusal, wanted in (
            (f"prefork: config C2\n{file}  unknown key: workrs\n{codes}", "site.toml, line 4: workrs = 1: unknown key: workrs"),
            (f"prefork: config C5 0 A3\n{file}{codes}", "site.toml, line 4: workrs = 1: no port"),
            (f"prefork: config C5 0 A3\n{file}    Write [::1]:80\n{codes}", "site.toml, line 4: workrs = 1: no port. Write [::1]:80"),
            ("prefork: config C1", ""), ("", ""),
        ):
            self.assertEqual(mistake_of(refusal), wanted)

    def test_the_file_that_has_the_text(self) -> None:
        self.assertEqual(self.commands.source(), self.config)
        self.configure("workers = 9\n")
        self.assertEqual(self.commands.source(), self.commands.now)
        self.config.unlink()
        self.assertEqual(self.commands.source(), self.commands.now)

    def test_a_configuration_that_is_missing_is_missing_for_the_master(self) -> None:
        self.config.unlink()
        self.change("1.1")
        self.assertFalse(self.commands.next.exists())
        self.commands.settle("refused W4")
        self.assertEqual(words_of(self.place / "next"), ["one"])

    def test_nothing_is_left(self) -> None:
        self.start("1.1")
        self.commands.clear()
        self.assertEqual([file.name for file in self.room.iterdir()], ["site.toml"])


class LaunchTest(unittest.TestCase):
    @classmethod
    def setUpClass(cls) -> None:
        built()

    def launched(self, room: str, word: str, text: str, **more: str) -> subprocess.CompletedProcess:
        environment = {**os.environ, "PREFORK_FOLDER": room, **more}
        return subprocess.run([OUT / "prefork-launch", word], input=text, capture_output=True, text=True, env=environment)

    def test_a_worker_gets_its_command_and_all_its_lines(self) -> None:
        with tempfile.TemporaryDirectory() as room:
            place = pathlib.Path(room) / "commands"
            place.mkdir()
            (place / "next").write_bytes(b"sh\0-c\0echo a; cat\0")
            (place / "2.7").write_bytes(b"sh\0-c\0echo b; cat\0")
            (pathlib.Path(room) / "workers").mkdir()
            for generation, wanted in (("1.1", "a"), ("2.7", "b")):
                lines = f"worker {generation} 0 7\nlistener x\ngo\n"
                self.assertEqual(self.launched(room, "child", lines).stdout, f"{wanted}\n{lines}")
                self.assertTrue((pathlib.Path(room) / "workers" / f"{generation}.0").read_text().strip().isdigit())
            self.assertEqual((place / "1.1").stat().st_ino, (place / "next").stat().st_ino)

    def test_words_before_the_command_are_for_its_environment(self) -> None:
        with tempfile.TemporaryDirectory() as room:
            place = pathlib.Path(room) / "commands"
            place.mkdir()
            (place / "next").write_bytes(b"PREFORK_ADDRESSES=a b\0sh\0-c\0echo $PREFORK_ADDRESSES $1\0sh\0A=b\0")
            self.assertEqual(self.launched(room, "child", "worker 1.1 0 7\n").stdout, "a b A=b\n")

    def test_sections_are_for_the_workers_of_groups(self) -> None:
        with tempfile.TemporaryDirectory() as folder:
            room = pathlib.Path(folder)
            (room / "commands").mkdir()
            (room / "reasons").touch()
            (room / "secret").write_text("hunter2\n\n")
            said = 'echo "$0 $1|$A|$S|$PWD|$(nice)|$(ulimit -Sn) $(ulimit -Hn)|$PREFORK_ADDRESSES"'
            recipes = [
                Recipe(("sh", "-c", said, "one", "\1x"), last=1, variables=(("A", "b\nc"),)),
                Recipe(("sh", "-c", said, "two", ""), folder=f"{room}/workers", variables=(("A", ""),),
                       secrets=(("S", f"{room}/secret"),), nice=19, limits=((7, 55, 66),)),
            ]
            (room / "workers").mkdir()
            (room / "commands" / "next").write_bytes(file_of([one.group() for one in recipes], [one.words for one in recipes], ["PREFORK_ADDRESSES=a b"]))
            limits, nice = f"{resource.getrlimit(7)[0]} {resource.getrlimit(7)[1]}", os.getpriority(os.PRIO_PROCESS, 0)
            for number, wanted in (
                (0, f"one \1x|b\nc||{os.getcwd()}|{nice}|{limits}|a b\n"), (1, f"one \1x|b\nc||{os.getcwd()}|{nice}|{limits}|a b\n"),
                (2, f"two ||hunter2|{room}/workers|19|55 66|a b\n"), (1023, f"two ||hunter2|{room}/workers|19|55 66|a b\n"),
            ):
                found = self.launched(folder, "child", f"worker 1.1 {number} 7\n")
                self.assertEqual(found.stdout, wanted, found.stderr)
            (room / "secret").unlink()
            self.assertEqual(self.launched(folder, "child", "worker 1.1 2 7\n").returncode, 1)
            self.assertEqual((room / "reasons").read_text(), f"1.1.2 {room}/secret: No such file or directory\n")

    def test_a_section_that_is_cut_starts_nothing(self) -> None:
        whole = b"\1workers 4294967295\0\1set A=b\0\1command 2\0echo\0x\0"
        for cut in (whole[: whole.index(b"echo")], whole[: whole.index(b"x\0")], b"\1workers 0\0\1command 1\0echo\0", b"\1set A=b\0"):
            with tempfile.TemporaryDirectory() as room:
                (pathlib.Path(room) / "commands").mkdir()
                (pathlib.Path(room) / "commands" / "next").write_bytes(cut)
                found = self.launched(room, "child", "worker 1.1 1 7\n")
                self.assertEqual((found.returncode, found.stdout), (1, ""), (cut, found))

    def test_no_argument_of_a_command_is_cut(self) -> None:
        for words in ([str(number) for number in range(5000)], ["x" * 100_000, "y" * 100_000]):
            with tempfile.TemporaryDirectory() as room:
                (pathlib.Path(room) / "commands").mkdir()
                (pathlib.Path(room) / "commands" / "next").write_bytes("".join(f"{word}\0" for word in ["echo", *words]).encode())
                self.assertEqual(self.launched(room, "child", "worker 1.1 0 7\n").stdout.split(), words)

    def test_a_worker_starts_where_the_path_leads_at_that_moment(self) -> None:
        with tempfile.TemporaryDirectory() as folder:
            room = pathlib.Path(folder)
            (room / "commands").mkdir()
            (room / "commands" / "next").write_bytes(b"./start\0")
            place, text = room / "current", "worker 1.1 0 7\n"
            for release in ("one", "two"):
                (room / release).mkdir()
                (room / release / "start").write_text(f"#!/bin/sh\necho {release} $PWD; pwd -P\n")
                (room / release / "start").chmod(0o755)
                place.unlink(missing_ok=True)
                place.symlink_to(release)
                found = self.launched(folder, "child", text, PREFORK_PLACE=str(place))
                self.assertEqual(found.stdout, f"{release} {place}\n{(room / release).resolve()}\n")
            place.unlink()
            (room / "reasons").touch()
            found = self.launched(folder, "child", text, PREFORK_PLACE=str(place))
            self.assertEqual((found.returncode, found.stdout), (1, ""))
            self.assertEqual((room / "reasons").read_text(), f"1.1.0 {place}: No such file or directory\n")

    def test_messages_of_workers_go_where_those_of_the_service_go(self) -> None:
        with tempfile.TemporaryDirectory() as folder:
            room = pathlib.Path(folder)
            (room / "commands").mkdir()
            (room / "commands" / "next").write_bytes(b"sh\0-c\0echo worker >&2\0")
            with open(room / "said", "w") as said:
                command = [BIN / "prefork-keeper", room / "keeper.sock"]
                keeper: Any = subprocess.Popen(command, stdin=subprocess.PIPE, stderr=said)
            self.assertTrue(until((room / "keeper.sock").exists))
            more = {"PREFORK_KEEPER": str(room / "keeper.sock"), "PREFORK_PROGRAM": str(room / "master")}
            (room / "master").write_text("#!/bin/sh\necho master >&2\n")
            (room / "master").chmod(0o755)
            for word, text in (("child", "worker 1.1 0 7\n"), ("adopt", "")):
                self.assertEqual(self.launched(folder, word, text, **more).stderr, "")
            keeper.stdin.close()
            keeper.wait(60)
            # A process of its own passes the lines of a worker on, with its name.
            wanted = ["1.1.0: worker", "master"]
            self.assertTrue(until(lambda: sorted((room / "said").read_text().splitlines()) == wanted), (room / "said").read_text())

    def test_what_is_no_start_of_a_worker_is_refused(self) -> None:
        with tempfile.TemporaryDirectory() as room:
            worker = "worker 1.1 0 7"
            for word, text in (("child", "go\n"), ("child", f"{worker}\n"), ("child", worker), ("other", "")):
                self.assertIn(self.launched(room, word, text).returncode, (1, 2), text)
            self.assertEqual(self.launched(room, "child", "").returncode, 0)

    def test_a_new_master_is_the_masters_program(self) -> None:
        with tempfile.TemporaryDirectory() as room:
            found = self.launched(room, "adopt", "", PREFORK_PROGRAM="echo").stdout
            self.assertEqual(found, f"adopt --program {OUT / 'prefork-launch'}\n")


if __name__ == "__main__":
    unittest.main()

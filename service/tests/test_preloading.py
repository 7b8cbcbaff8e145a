"""prefork-shim and preloaders: who ends with whom, and what those that wait are told."""
import ast
import os
import pathlib
import selectors
import signal
import socket
import subprocess
import threading
import time
import types
import unittest
from typing import Any

from kit import BIN, SERVICE, WorkerTest, answer_of, free_address, until
from prefork_service.conversation import END
from prefork_service.preloading import Preloading
from prefork_service.processes import fields_of
from prefork_service.recipes import Recipe, Runs
from test_wsgi import PYTHON

APPLICATION = """import os, time
time.sleep(float(os.environ.get("LOADS", "0")))
def application(environ, start):
    text = b"version 1 process %d\\n" % os.getpid()
    start("200 OK", [("Content-Type", "text/plain"), ("Content-Length", str(len(text)))])
    return [text]
"""
# Serves in this process as a preloader does, and says how many pages, and which threads and descriptors are left.
PRACTICE = """import os, sys, threading
sys.path.insert(0, sys.argv[1])
from prefork_service import practising
before = os.listdir("/proc/self/fd")
print(practising.practise(4), len(os.listdir("/proc/self/fd")) - len(before), threading.active_count())
"""
# Answers with the modules that a worker has loaded itself.
MODULES = """import os, sys
known = set()
os.register_at_fork(after_in_child=lambda: known.update(sys.modules))
def application(environ, start):
    text = (" ".join(sorted(set(sys.modules) - known)) or "none").encode()
    start("200 OK", [("Content-Type", "text/plain"), ("Content-Length", str(len(text)))])
    return [text]
"""


def runs(process: int) -> bool:
    fields = fields_of(process)
    return bool(fields) and fields[0] != "Z"


@unittest.skipUnless(PYTHON, "no Python with waitress")
class PreloadingTest(WorkerTest):
    """The loop of a service is a thread here."""

    def setUp(self) -> None:
        super().setUp()
        (self.room / "reasons").touch()
        (self.room / "app.py").write_text(APPLICATION)
        os.environ["PREFORK_FOLDER"] = str(self.room)
        self.addCleanup(os.environ.pop, "PREFORK_FOLDER")
        self.ends, self.preloading = False, None  # type: ignore[assignment]

    def begun(self, *options: str, application: str = "app") -> None:
        command = (str(PYTHON), str(BIN / "prefork-wsgi"), "--chdir", str(self.room), *options, "--preloader", application)
        events = selectors.DefaultSelector()
        seconds = 5.0 if options[:1] == ("--ready-within",) else 30.0
        self.preloading = Preloading(events, types.SimpleNamespace(path=self.room), seconds)
        self.word = self.preloading.words(False, 0, Recipe(command, Runs.PRELOADED).group())
        waked, self.wake = os.pipe()
        events.register(waked, selectors.EVENT_READ, lambda number: os.read(number, 1))
        self.thread = threading.Thread(target=self.loop, args=(events,))
        self.thread.start()
        self.addCleanup(self.finish)

    def loop(self, events: selectors.BaseSelector) -> None:
        while not self.ends:
            for key, _ in events.select(0.1):
                key.data(key.fileobj)
            self.preloading.tend()
        self.preloading.end()

    def finish(self) -> None:
        self.ends = True
        self.thread.join()

    def worker(self, number: int = 0, go: bool = True):
        address = free_address()
        talk = self.started(*self.word, addresses=(address,), go=go, PREFORK_WORKER=f"1.1.{number}")
        return talk, address

    def process_at(self, address: str) -> int:
        return int(answer_of(address).split()[3])

    def reasons(self) -> str:
        return (self.room / "reasons").read_text()

    def test_workers_are_forked_by_one_preloader(self) -> None:
        self.begun()
        talks = [self.worker(number) for number in range(4)]
        self.assertEqual([talk.hear() for talk, _ in talks], ["ready"] * 4)
        preloader = self.preloading.now[0].process.pid
        processes = [self.process_at(address) for _, address in talks]
        self.assertEqual({int(fields_of(process)[1]) for process in processes}, {preloader})
        self.assertEqual(self.preloading.now[0].starts, 1)
        # (they are all told the same first line)
        for process in processes:
            self.assertEqual(pathlib.Path(f"/proc/{process}/comm").read_text(), "worker 1.1.0\n")
        for talk, _ in talks:
            talk.say("quit")
            self.assertEqual((talk.hear(), talk.hear(), talk.wait()), ("gone", END, 0))
        self.assertTrue(until(lambda: not any(map(runs, processes))))

    def test_a_worker_shares_all_modules(self) -> None:
        (self.room / "app.py").write_text(MODULES)
        self.begun()
        talk, address = self.worker()
        self.assertEqual(talk.hear(), "ready")
        self.assertEqual(answer_of(address), "none")

    def test_a_preloader_that_has_practised_has_nothing_of_it(self) -> None:
        told = subprocess.run([str(PYTHON), "-c", PRACTICE, str(SERVICE)], capture_output=True, text=True)
        self.assertEqual((told.stdout, told.stderr), ("20 0 1\n", ""))

    def test_each_ends_when_the_other_is_killed(self) -> None:
        self.begun()
        for kills_worker in (True, False):
            for is_stopped in (True, False):
                talk, address = self.worker()
                self.assertEqual(talk.hear(), "ready")
                process = self.process_at(address)
                if is_stopped:
                    os.kill(process, signal.SIGSTOP)
                os.kill(process if kills_worker else talk.process.pid, signal.SIGKILL)
                self.assertEqual(talk.hear(5), END)
                self.assertIn(talk.wait(5), (1, -9))
                self.assertTrue(until(lambda: not runs(process), 5))

    def test_signals_are_passed_on(self) -> None:
        self.begun()
        talk, address = self.worker()
        self.assertEqual(talk.hear(), "ready")
        process = self.process_at(address)
        os.kill(talk.process.pid, signal.SIGTERM)
        self.assertTrue(until(lambda: not runs(process), 5))
        self.assertEqual(talk.wait(5), 1)

    def test_a_killed_preloader(self) -> None:
        self.begun()
        talk, address = self.worker()
        self.assertEqual(talk.hear(), "ready")
        process, preloader = self.process_at(address), self.preloading.now[0].process.pid
        os.kill(preloader, signal.SIGKILL)
        self.assertTrue(until(lambda: not runs(preloader)))
        talk.say("ping")
        self.assertEqual((talk.hear(), self.process_at(address)), ("pong", process))
        other, other_address = self.worker(1)
        self.assertEqual(other.hear(), "ready")
        self.assertNotEqual(self.preloading.now[0].process.pid, preloader)
        self.assertNotEqual(self.process_at(other_address), process)
        # The worker that has lost its preloader still ends with its shim, and its shim with it.
        talk.process.kill()
        self.assertTrue(until(lambda: not runs(process), 5))

    def test_a_preloader_that_hangs(self) -> None:
        self.begun()
        talk, _ = self.worker()
        self.assertEqual(talk.hear(), "ready")
        preloader = self.preloading.now[0].process.pid
        os.kill(preloader, signal.SIGSTOP)
        other, _ = self.worker(1)
        self.assertEqual(other.hear(30), "ready")
        self.assertNotEqual(self.preloading.now[0].process.pid, preloader)

    def test_an_application_that_does_not_load(self) -> None:
        (self.room / "app.py").write_text("1 / 0")
        self.begun()
        talks = [self.worker(number)[0] for number in range(3)]
        self.assertEqual([talk.hear() for talk in talks], [END] * 3)
        self.assertEqual([talk.wait() for talk in talks], [1] * 3)
        for number in range(3):
            self.assertIn(f"1.1.{number} app: ZeroDivisionError: division by zero\n", self.reasons())
        self.assertEqual(self.preloading.now[0].starts, 1)
        # Mended, the next worker has it loaded.
        (self.room / "app.py").write_text(APPLICATION)
        talk, _ = self.worker()
        self.assertEqual(talk.hear(), "ready")

    def test_an_application_that_exits_or_hangs_while_it_loads(self) -> None:
        for text, told in (("import os; os._exit(7)", "status 7"), ("import time; time.sleep(60)", "has not loaded after 5 seconds")):
            (self.room / "app.py").write_text(text)
            if not self.preloading:
                self.begun("--ready-within", "5")
            talk, _ = self.worker()
            self.assertEqual((talk.hear(40), talk.wait()), (END, 1))
            self.assertIn(told, self.reasons())

    def test_quit_and_the_end_of_a_master_while_it_loads(self) -> None:
        os.environ["LOADS"] = "3"
        self.addCleanup(os.environ.pop, "LOADS")
        self.begun()
        began = time.monotonic()
        talk, _ = self.worker()
        talk.say("quit")
        self.assertEqual((talk.hear(), talk.wait()), ("gone", 0))
        other, _ = self.worker()
        other.process.stdin.close()
        self.assertEqual(other.wait(), 0)
        self.assertLess(time.monotonic() - began, 2.5)

    def test_a_generation_that_ends(self) -> None:
        self.begun()
        talk, address = self.worker()
        self.assertEqual(talk.hear(), "ready")
        old, process = self.preloading.now[0], self.process_at(address)
        self.finish()
        preloader = old.process.pid
        # It stays for its worker, and forks no other one.
        time.sleep(0.5)
        self.assertTrue(runs(preloader) and runs(process))
        other, _ = self.worker(1)
        self.assertEqual(other.hear(), END)
        self.assertIn("no preloader", self.reasons())
        talk.say("quit")
        self.assertEqual((talk.hear(), talk.wait()), ("gone", 0))
        self.assertEqual(old.process.wait(10), 0)

    def test_what_an_application_opens_and_starts_while_it_loads(self) -> None:
        text = "import socket, sqlite3, threading, time\n"
        text += "a = socket.socketpair()\nb = sqlite3.connect('base'); b.execute('create table t(x)')\n"
        text += "threading.Thread(target=time.sleep, args=(60,), name='poller', daemon=True).start()\n"
        (self.room / "app.py").write_text(text + APPLICATION)
        command = [str(PYTHON), str(BIN / "prefork-wsgi"), "--chdir", str(self.room), "--preloader", "app"]
        with socket.socket(socket.AF_UNIX, socket.SOCK_SEQPACKET) as door:
            door.bind(str(self.room / "door"))
            door.listen()
            given: dict[str, Any] = {"capture_output": True, "text": True, "pass_fds": [door.fileno()]}
            told = subprocess.run(command, **given, input="", env={**os.environ, "PREFORK_FORK_SOCKET": str(door.fileno())})
        self.assertEqual((told.returncode, told.stdout), (0, "loaded\n"))
        for text in ("threads (poller)", "a connection (descriptor", "/base (descriptor"):
            self.assertIn(text, told.stderr)

    def test_random_numbers_of_workers_differ(self) -> None:
        """Also where the application has drawn some while it loaded. Its own generators, which it has seeded, do not."""
        text = "import random\ndrawn = random.random()\nown = random.Random(1)\n"
        text += APPLICATION.replace('b"version 1 process %d\\n" % os.getpid()', 'repr((drawn, own.random(), random.random())).encode()')
        (self.room / "app.py").write_text(text)
        self.begun()
        talks = [self.worker(number) for number in range(4)]
        self.assertEqual([talk.hear() for talk, _ in talks], ["ready"] * 4)
        drawn, own, numbers = zip(*(ast.literal_eval(answer_of(address)) for _, address in talks))
        self.assertEqual((len(set(drawn)), len(set(own)), len(set(numbers))), (1, 1, 4))

    def test_hooks_and_a_page_before_the_first_fork(self) -> None:
        text = "import pathlib, os\ndef note(text):\n    open('notes', 'a').write(f'{text} {os.getpid()}\\n')\n"
        text += "def loaded():\n    note('loaded')\ndef forked(name):\n    note(name)\n"
        (self.room / "hooks.py").write_text(text)
        self.begun("--after-load", "hooks:loaded", "--after-fork", "hooks:forked", "--warm", "/")
        talks = [self.worker(number) for number in range(2)]
        self.assertEqual([talk.hear() for talk, _ in talks], ["ready"] * 2)
        notes = [line.split() for line in (self.room / "notes").read_text().splitlines()]
        self.assertEqual(notes[0], ["loaded", str(self.preloading.now[0].process.pid)])
        wanted = sorted([f"1.1.{at}", str(self.process_at(address))] for at, (_, address) in enumerate(talks))
        self.assertEqual(sorted(notes[1:]), wanted)

    def test_a_function_that_fails_after_the_fork(self) -> None:
        (self.room / "hooks.py").write_text("def forked(name):\n    1 / 0\n")
        self.begun("--after-fork", "hooks:forked")
        talk, _ = self.worker()
        self.assertEqual((talk.hear(), talk.wait()), (END, 1))
        self.assertIn("1.1.0 after the fork: ZeroDivisionError: division by zero\n", self.reasons())


if __name__ == "__main__":
    unittest.main()

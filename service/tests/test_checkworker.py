"""prefork-checkworker: passes a worker, and names the fault of a program that is not one."""
import argparse
import concurrent.futures
import contextlib
import io
import pathlib
import re
import subprocess
import tempfile
import unittest
from collections.abc import Callable

from kit import BIN, OUT, PROGRAMS, PYTHON, SERVICE, built
from prefork_service.checkpreloader import PreloaderBench, check_end, check_forks, check_load
from test_wsgi import PYTHON as PYTHON_WITH_WAITRESS

RIGHT = {
    "the test double": [SERVICE / "double" / "app", "child"],
    "prefork-activate": [OUT / "prefork-activate", "--", PYTHON, PROGRAMS / "page.py"],
    "prefork-activate with a probe": [
        OUT / "prefork-activate", "--ready", "probe", "--probe", "/", "--", PYTHON, PROGRAMS / "page.py"
    ],
}
if PYTHON_WITH_WAITRESS:
    RIGHT["prefork-wsgi"] = [PYTHON_WITH_WAITRESS, BIN / "prefork-wsgi", "--chdir", PROGRAMS, "wsgi_page:application"]
# Of each wrong worker, the point that it does not meet.
WRONG = {
    "early": "once it is ready, it answers requests at each address",
    "prints": "ping is answered by pong, and it says nothing unasked",
    "hurries": "a request that had begun before quit is answered",
    "leaves": "after SIGKILL, no process of it is left",
    "blocks": "the shared socket stays non-blocking",
    "forgets": "tick is answered by beat, the moment and its start",
    "stays": "after gone it ends with status 0",
    "deaf": "at the end of input it ends with status 0",
    "shuts": "no request is lost when it quits while another worker serves the socket",
    "talks": "usr1 is not answered",
    "lingers": "a survivor ends with status 0 once its file is gone",
}


# Of each wrong preloader, the point that it does not meet.
WRONG_PRELOADERS = {
    "keeps": "it keeps no descriptor of a worker that has ended",
    "hands": "no worker has a descriptor of the preloader, or of another worker",
    "loose": "a stopped worker ends with its shim",
    "silent": "it says forked for each worker",
    "buries": "after a killed worker, no process of it is left",
    "stays": "at the end of its input it closes the fork socket",
}


# A wrong worker is not waited for long, unless a busy machine does not let it start in this time.
SHORT, LONG = 5, 45


def checked(command: list, seconds: int = LONG) -> tuple[int, str]:
    """The status of the check, and what it said."""
    options, program = (["--preload"], command[1:]) if command[:1] == ["--preload"] else ([], command)
    words = [BIN / "prefork-checkworker", "--slow", "/slow", *options, "--patience", str(seconds), "--", *program]
    found = subprocess.run(words, stdout=subprocess.PIPE, stderr=subprocess.DEVNULL, stdin=subprocess.DEVNULL, text=True)
    return found.returncode, found.stdout


def preloader_checked(command: list[str]) -> str:
    """What the checks of a preloader say, without those of its workers."""
    said = io.StringIO()
    given = argparse.Namespace(command=command, patience=LONG, path="/", slow=None, one=False)
    with tempfile.TemporaryDirectory(prefix="checkworker-") as room, contextlib.redirect_stdout(said):
        bench = PreloaderBench(given, pathlib.Path(room))
        try:
            for check in (check_load, check_forks, check_end):
                check(bench)
        finally:
            bench.close()
    return said.getvalue()


class CheckTest(unittest.TestCase):
    @classmethod
    def setUpClass(cls) -> None:
        built()

    def test_a_command_that_is_no_program(self) -> None:
        for command in (["/no/such/worker"], [PROGRAMS]):
            with self.subTest(command):
                words = [BIN / "prefork-checkworker", *command]
                found = subprocess.run(words, capture_output=True, stdin=subprocess.DEVNULL, text=True)
                self.assertEqual((found.returncode, found.stdout), (2, ""))
                self.assertRegex(found.stderr, r"^prefork-checkworker: /\S+: [A-Z][a-z ]+\n$")

    def test_workers_and_wrong_ones(self) -> None:
        """All at a time: most of the time they wait."""
        wrong = {fault: [PYTHON, PROGRAMS / "wrong.py", fault] for fault in WRONG}
        commands, seconds = RIGHT | wrong, [LONG] * len(RIGHT) + [SHORT] * len(wrong)
        with concurrent.futures.ThreadPoolExecutor(8) as pool:
            found = dict(zip(commands, pool.map(checked, commands.values(), seconds)))
        for name in RIGHT:
            with self.subTest(name):
                self.assertEqual(found[name][0], 0, found[name][1])
        for fault, point in WRONG.items():
            with self.subTest(fault):
                status, said = found[fault]
                if f"FAULT  {point}; " not in said:
                    status, said = checked(wrong[fault])
                self.assertEqual(status, 1)
                self.assertIn(f"FAULT  {point}; found: ", said)

    def test_a_preloader_that_does_not_load(self) -> None:
        status, said = checked(["--preload", PYTHON, "-c", "raise SystemExit(1)"])
        self.assertEqual(status, 1)
        self.assertIn("FAULT  it says loaded, and nothing before; found: '(the end of its output)'\n", said)
        self.assertIn("\n0 passed, 1 failed\n", said)

    def test_a_command_that_cannot_be_started(self) -> None:
        found = subprocess.run([BIN / "prefork-checkworker"], capture_output=True, text=True)
        self.assertEqual(found.returncode, 2)


@unittest.skipUnless(PYTHON_WITH_WAITRESS, "no Python with waitress")
class PreloadersTest(unittest.TestCase):
    """A leak of descriptors, from the preloader to workers or from workers to the preloader, is among the faults. A test for
    each: most of the time they wait."""

    @classmethod
    def setUpClass(cls) -> None:
        built()

    def finds(self, fault: str, points: list[str]) -> None:
        program = [PROGRAMS / "wrong_preloader.py", fault, "--chdir", PROGRAMS, "--preloader", "wsgi_page:application"]
        said = preloader_checked([str(PYTHON_WITH_WAITRESS), *map(str, program)])
        found = re.findall(r"^FAULT  (.*); found: ", said, re.M)
        self.assertTrue(set(points) <= set(found) and bool(found) == bool(points), said)


def finder(fault: str, points: list[str]) -> Callable[[PreloadersTest], None]:
    return lambda test: test.finds(fault, points)


for fault, point in WRONG_PRELOADERS.items():
    setattr(PreloadersTest, f"test_one_that_{fault}", finder(fault, [point]))
setattr(PreloadersTest, "test_a_right_one", finder("nothing", []))


if __name__ == "__main__":
    unittest.main()

"""A machine without /proc: what rests on it is refused by name, and nothing hangs."""
import pathlib
import subprocess
import tempfile
import time
import unittest

from kit import BIN, OUT, PROGRAMS, built, until

# Runs a command where /proc is an empty folder.
WITHOUT = ["unshare", "--mount", "sh", "-c", 'mount -t tmpfs none /proc && exec "$@"', "sh"]
SECONDS = 60


def is_possible() -> bool:
    try:
        return subprocess.run([*WITHOUT, "true"], capture_output=True).returncode == 0
    except OSError:
        return False


@unittest.skipUnless(is_possible(), "no other /proc can be mounted here")
class ProcTest(unittest.TestCase):
    def setUp(self) -> None:
        built()

    def test_an_adapter_refuses_to_look_for_those_that_accept(self) -> None:
        for more, status in (([], 2), (["--ready", "accept"], 2), (["--ready", "notify"], 0), (["--ready", "probe", "--probe", "/"], 0)):
            command = [*WITHOUT, OUT / "prefork-activate", *more, "--check", "--", "true"]
            found = subprocess.run(command, capture_output=True, text=True, timeout=SECONDS)
            self.assertEqual(found.returncode, status, found.stderr)
            if status:
                self.assertEqual(found.stderr, "prefork-activate: --ready accept needs /proc, which is not there; take --ready notify or "
                                 "--ready probe; see --help\n")

    def test_a_service_is_refused_by_name(self) -> None:
        with tempfile.TemporaryDirectory() as room:
            command = [*WITHOUT, BIN / "prefork-serve", "--prefork", PROGRAMS / "master.py", "--listen", "127.0.0.1:1", "--", "true"]
            found = subprocess.run(command, cwd=room, capture_output=True, text=True, timeout=SECONDS)
            self.assertEqual(found.returncode, 1)
            self.assertIn("prefork-serve: /proc is not mounted, and nothing else tells which processes run\n", found.stderr)
            self.assertEqual(list(pathlib.Path(room).iterdir()), [])

    def test_a_worker_that_ends_ends_its_program_all_the_same(self) -> None:
        """It has a child in its group; its adapter ends within a moment, and both have ended."""
        with tempfile.TemporaryDirectory() as room:
            said, keeper = pathlib.Path(room) / "said", pathlib.Path(room) / "keeper.sock"
            started = subprocess.Popen([BIN / "prefork-keeper", keeper], stdin=subprocess.PIPE)
            self.addCleanup(started.wait)
            self.addCleanup(started.stdin.close if started.stdin else lambda: None)
            self.assertTrue(until(keeper.exists))
            script = f'sleep 1000 & echo $$ $! >{said}.new; mv {said}.new {said}; wait'
            command = [*WITHOUT, "env", f"PREFORK_KEEPER={keeper}", OUT / "prefork-activate", "--ready", "notify", "--finish", "1", "--", "sh", "-c", script]
            worker = subprocess.Popen(command, stdin=subprocess.PIPE, stdout=subprocess.DEVNULL)
            assert worker.stdin
            worker.stdin.write(f"worker 1.1 0 7\nlistener {room}/s.sock\ngo\n".encode())
            worker.stdin.flush()
            self.assertTrue(until(said.exists, SECONDS))
            begun = time.monotonic()
            worker.stdin.close()
            worker.wait(SECONDS)
            self.assertLess(time.monotonic() - begun, SECONDS)
            running = [one for one in said.read_text().split() if pathlib.Path(f"/proc/{one}/fd").exists()]
            self.assertTrue(until(lambda: not [one for one in running if pathlib.Path(f"/proc/{one}/exe").exists()], SECONDS))


if __name__ == "__main__":
    unittest.main()

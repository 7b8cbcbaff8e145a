"""Why calls failed."""
import pathlib
import subprocess
import tempfile
import unittest
from unittest import mock

from prefork_service import places
from prefork_service.explaining import UNKNOWN, explained
from prefork_service.reasons import Reasons

BACK = "rolled-back cause 2 pid no-file\n"


def block(*lines: str) -> str:
    return "".join(f"{line}\n" for line in ("word HUP", *lines)) + BACK


class ReasonsTest(unittest.TestCase):
    def test_what_is_noted_is_taken_once(self) -> None:
        with tempfile.TemporaryDirectory() as room:
            path = pathlib.Path(room) / "reasons"
            reasons = Reasons(path)
            with open(path, "a") as file:
                file.write("1.2.0 worker: one\n1.2.0 worker: two\nadopt no program\n")
            self.assertEqual(reasons.take(), {"1.2.0": "worker: two", "adopt": "no program"})
            self.assertEqual(reasons.take(), {})
            with open(path, "a") as file:
                file.write(f"1.3.0 {'x' * 70000}\n")
            self.assertEqual(len(reasons.take()["1.3.0"]), 70000)
            self.assertEqual(path.stat().st_size, 0)
            with open(path, "a") as file:
                file.write("1.4.0 why\n")
            self.assertEqual(reasons.take(), {"1.4.0": "why"})
            path.unlink()
            self.assertEqual(reasons.take(), {})

    def test_what_would_tell_a_terminal_to_do_something_is_not_passed_on(self) -> None:
        with tempfile.TemporaryDirectory() as room:
            path = pathlib.Path(room) / "reasons"
            reasons = Reasons(path)
            path.write_text("1.2.0 red: \x1b[31mred\x1b]0;title\x07\n")
            self.assertEqual(reasons.take(), {"1.2.0": "red: ?[31mred?]0;title?"})

    def test_a_worker_that_did_not_start(self) -> None:
        found = explained(block("1 m1 fork 1.2 0 : forked", "2 m1 await-ready 1.2 0 : gone"), {"1.2.0": "no such file"})
        self.assertEqual(found, ["2 m1 await-ready 1.2 0 : gone: no such file"])

    def test_the_reason_of_another_worker_is_not_taken(self) -> None:
        lines = ("2 m1 await-ready 1.2 1 : gone", "3 m1 await-ready 1.2 0 : late")
        found = explained(block(*lines), {"1.2.0": "too slow"}, ["127.0.0.1:80: Address already in use"])
        self.assertEqual(found, [f"{lines[0]}: 127.0.0.1:80: Address already in use", f"{lines[1]}: too slow"])
        self.assertEqual(explained(block(lines[0]), {}), [f"{lines[0]}: {UNKNOWN}"])
        self.assertEqual(explained(block(lines[1]), {}), [f"{lines[1]}: it was not ready in time"])

    def test_calls_that_failed_alike_are_explained_once(self) -> None:
        lines = [f"{number} m1 await-ready 1.2 {number} : gone" for number in range(1, 9)]
        self.assertEqual(explained(block(*lines), {}, ["in use"]), [f"{lines[0]}: in use"])

    def test_a_new_master(self) -> None:
        found = explained(block("2 m2 adopt : refused"), {"adopt": "/x: Permission denied"})
        self.assertEqual(found, ["2 m2 adopt : refused: /x: Permission denied"])

    def test_a_fork_is_tried_again_for_the_reason(self) -> None:
        line = "2 m1 fork 1.2 0 : again"
        with tempfile.TemporaryDirectory() as room:
            launch = pathlib.Path(room) / "launch"
            launch.write_text("#!/bin/sh\n")
            with mock.patch.object(places, "LAUNCH", launch):
                self.assertEqual(explained(block(line), {}), [f"{line}: {launch}: Permission denied"])
                launch.chmod(0o755)
                self.assertIn("no process or descriptor left", explained(block(line), {})[0])

    def test_many_failed_starts_start_one_process(self) -> None:
        """Nobody is answered meanwhile, and a tick of a big service can fail to start hundreds of workers."""
        failed = block(*(f"{number} m1 fork 1.2 {number} : again" for number in range(1, 201)))
        with tempfile.TemporaryDirectory() as room:
            launch, begun = pathlib.Path(room) / "launch", pathlib.Path(room) / "begun"
            launch.write_text(f"#!/bin/sh\necho begun >>'{begun}'\n")
            launch.chmod(0o755)
            started = mock.Mock(side_effect=subprocess.Popen)
            with mock.patch.object(places, "LAUNCH", launch), mock.patch.object(subprocess, "Popen", started):
                self.assertEqual(len(explained(failed, {})), 1)
            self.assertEqual((begun.read_text(), started.call_count), ("begun\n", 1))

    def test_plain_calls_need_no_reason(self) -> None:
        plain = ("1 m1 open 127.0.0.1:80 : opened 4", "2 m1 fork 1.2 0 fds 3-4 : forked", "3 m1 census 1.2 : counted 0-2",
                 "4 m1 await-gone 1.1 0 : gone", "5 m2 leave : ok", "6 m1 ask 1 : go", "7 m2 usr1 2.6 0 : ok")
        self.assertEqual(explained(block(*plain), {}), [])
        for line in ("1 m1 open 127.0.0.1:80 : in-use", "2 m1 fork 1.2 0 fds 3-4 : again", "6 m1 ask 1 : back"):
            self.assertEqual(len(explained(block(line), {})), 1, line)


if __name__ == "__main__":
    unittest.main()

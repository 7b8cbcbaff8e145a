"""Programs that are told what happens."""
import errno
import json
import os
import pathlib
import tempfile
import unittest
from unittest import mock

from kit import clock_ahead, until
from prefork_service import hooks
from prefork_service.events import EVENTS
from prefork_service.hooks import MOST_HOOKS, OF_OUTCOMES, Hooks


class HooksTest(unittest.TestCase):
    def setUp(self) -> None:
        room = tempfile.TemporaryDirectory()
        self.addCleanup(room.cleanup)
        self.room = pathlib.Path(room.name)

    def program(self, text: str) -> str:
        path = self.room / "hook"
        path.write_text(f"#!/bin/sh\n{text}\n")
        path.chmod(0o755)
        return str(path)

    def ended(self, found: Hooks) -> bool:
        def none_runs() -> bool:
            found.tend()
            return not found.running
        return until(none_runs)

    def test_a_program_gets_the_event_as_json(self) -> None:
        with mock.patch.dict("os.environ", {"LISTEN_FDS": "1", "NOTIFY_SOCKET": "/x"}):
            found = Hooks({"on-done": self.program(f'cat >{self.room}/told; echo "$1 $LISTEN_FDS$NOTIFY_SOCKET" >{self.room}/named')})
            found.tell("on-done", {"word": "HUP", "lines": ["x" * 100000]})
            found.tell("on-short", {})
            found.tell("", {})
        self.assertEqual(len(found.running), 1)
        self.assertTrue(self.ended(found))
        told = json.loads((self.room / "told").read_text())
        self.assertEqual((told["event"], told["word"], len(told["lines"][0])), ("on-done", "HUP", 100000))
        self.assertEqual((self.room / "named").read_text(), "on-done \n")

    def test_one_that_takes_too_long_is_killed_with_what_it_has_started(self) -> None:
        found = Hooks({"on-done": self.program(f"sleep 1000 & echo $! >{self.room}/child.new; mv {self.room}/child.new {self.room}/child; wait")})
        with mock.patch.object(hooks, "say") as said:
            found.tell("on-done", {})
            self.assertTrue(until((self.room / "child").exists))
            found.tend()
            said.assert_not_called()
            with mock.patch.object(hooks, "time", clock_ahead(31)):
                found.tend()
            self.assertIn("has not ended in time, and is killed", said.call_args[0][0])
        child = pathlib.Path("/proc") / (self.room / "child").read_text().strip() / "cmdline"
        self.assertTrue(until(lambda: not child.exists() or not child.read_bytes()))

    def test_what_goes_wrong_is_said(self) -> None:
        with mock.patch.object(hooks, "say") as said:
            found = Hooks({"on-done": str(self.room / "missing"), "on-short": self.program("exit 7")})
            found.tell("on-done", {})
            self.assertIn("No such file or directory", said.call_args[0][0])
            found.tell("on-short", {})
            self.assertTrue(self.ended(found))
            self.assertIn("has ended with status 7", said.call_args[0][0])

    def test_one_that_finds_no_process_left_is_started_later_and_in_its_order(self) -> None:
        found = Hooks({event: self.program(f"echo $1 >>{self.room}/told") for event in ("on-short", "on-healed")})
        full = OSError(errno.EAGAIN, os.strerror(errno.EAGAIN))
        with mock.patch.object(hooks, "say") as said:
            with mock.patch.object(hooks, "started", side_effect=full):
                found.tell("on-short", {})
                found.tell("on-healed", {})
                found.tend()
            self.assertEqual([call.args[0] for call in said.call_args_list], [f"--on-short: {self.room}/hook: {full.strerror}; it is tried again"])
            self.assertEqual(len(found.running), 0)
            found.tend()
            self.assertEqual(len(found.running), 2)
            self.assertTrue(self.ended(found))
            self.assertEqual(sorted((self.room / "told").read_text().split()), ["on-healed", "on-short"])
            # In the end it is given up.
            with mock.patch.object(hooks, "started", side_effect=full):
                found.tell("on-short", {})
                with mock.patch.object(hooks, "time", clock_ahead(601)):
                    found.tend()
            self.assertEqual((said.call_args[0][0], len(found.waiting)), (f"--on-short: {self.room}/hook: {full.strerror}", 0))

    def test_not_more_than_some_run_at_a_time(self) -> None:
        found = Hooks({"on-done": self.program("sleep 1000")})
        with mock.patch.object(hooks, "say") as said, mock.patch.object(hooks, "HOOK_END_SECONDS", 0.0):
            for _ in range(MOST_HOOKS + 1):
                found.tell("on-done", {})
            self.assertEqual((len(found.running), said.call_count), (MOST_HOOKS, 1))
            found.end()
        self.assertTrue(all(process.returncode == -9 for process, _, _ in found.running))

    def test_each_outcome_has_an_event(self) -> None:
        self.assertLessEqual(set(OF_OUTCOMES.values()), set(EVENTS))


if __name__ == "__main__":
    unittest.main()

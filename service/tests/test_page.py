"""The page of a service."""
import html.parser
import pathlib
import tempfile
import time
import unittest

from kit import until
from prefork_service.done import Done
from prefork_service.page import MOST_PLAN_LINES, NextPlan, drawn, masters_list, said, workers_table
from test_metrics import STATUS

BLOCK = "word HUP\n1 m1 fork 1.2 0 : forked\n2 m1 await-ready 1.2 0 : gone\nrolled-back cause 2 pid no-file\n"


class Reader(html.parser.HTMLParser):
    """What a page says, and whether its elements are closed."""

    def __init__(self) -> None:
        super().__init__()
        self.open: list[str] = []
        self.kinds: list[str] = []
        self.said = ""

    def handle_starttag(self, tag: str, attributes: list) -> None:
        if tag not in ("meta", "br"):
            self.open.append(tag)
        self.kinds.append(tag)

    def handle_endtag(self, tag: str) -> None:
        assert self.open.pop() == tag, tag

    def handle_data(self, data: str) -> None:
        self.said += data + " "


def read(text: str) -> Reader:
    reader = Reader()
    reader.feed(text)
    assert not reader.open, reader.open
    return reader


class PageTest(unittest.TestCase):
    def test_it_says_who_runs(self) -> None:
        found = read(workers_table(STATUS) + masters_list(STATUS))
        for wanted in ("has ended", "beat 1 s ago", "has failed 21 times: it <ended>; next try in 9 s", "old master, process 3:", "master: process 4"):
            self.assertIn(wanted, found.said)
        self.assertIn("No worker runs.", workers_table({**STATUS, "workers": [], "failing": []}))

    def test_an_old_master_has_not_left_while_the_upgrade_goes_on(self) -> None:
        self.assertIn("old master, process 3: it leaves at the end", masters_list({**STATUS, "doing": "USR2"}))
        self.assertIn("an upgrade has left it", masters_list(STATUS))

    def test_what_a_worker_said_last(self) -> None:
        found = read(said({"1.2.0": ["ZeroDivisionError: <x>"]}))
        self.assertIn("worker 1.2.0 said last:", found.said)
        self.assertIn("ZeroDivisionError: <x>", found.said)

    def test_the_call_that_went_wrong_is_drawn(self) -> None:
        told = drawn(Done("HUP", "now", 0.0, BLOCK, []))
        self.assertEqual((told.count("<i "), told.count("<i title=")), (2, 1))
        self.assertIn('<i class="wrong cause" title="2 m1 await-ready 1.2 0 : gone">', told)


class NextPlanTest(unittest.TestCase):
    def setUp(self) -> None:
        room = tempfile.TemporaryDirectory()
        self.addCleanup(room.cleanup)
        self.room = pathlib.Path(room.name)
        (self.room / "config.toml").write_text('listeners = ["127.0.0.1:1"]\nworkers = 2\n')
        self.file, self.program = self.room / "site.toml", self.room / "prefork"
        self.file.write_text("x\n")
        self.program.write_text(f'#!/bin/sh\necho run >>{self.room}/runs\ncat {self.file}\nseq 1000\n')
        self.program.chmod(0o755)
        service = {"folder": str(self.room), "file": str(self.file), "prefork": str(self.program)}
        self.status = {"service": service, "workers": [0, 1], "generation": "1.1", "doing": None, "file_has_changed": False}
        self.plan = NextPlan()
        self.addCleanup(self.plan.end)

    def comes(self, begin: str) -> bool:
        def is_there() -> bool:
            self.plan.tend(self.status)
            return self.plan.text.startswith(begin)
        return until(is_there)

    def test_it_is_made_once_and_again_when_something_has_changed(self) -> None:
        self.assertTrue(self.comes("x\n1\n"))
        self.assertEqual(len(self.plan.text.splitlines()), MOST_PLAN_LINES + 1)
        for _ in range(20):
            self.plan.tend(self.status)
            time.sleep(0.05)
        self.file.write_text("other\n")
        self.assertTrue(self.comes("other\n"))
        self.assertEqual((self.room / "runs").read_text(), "run\n" * 2)

    def test_none_is_made_while_a_word_is_on_its_way(self) -> None:
        self.status["doing"] = "HUP"
        self.plan.tend(self.status)
        self.assertIsNone(self.plan.process)

    def test_a_program_that_is_not_there(self) -> None:
        self.program.unlink()
        self.assertTrue(self.comes("It is not made: "))


if __name__ == "__main__":
    unittest.main()

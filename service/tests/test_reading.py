"""The process that reads a configuration for a word: it may fail, hang or be killed, and the service goes on."""
import json
import os
import pathlib
import selectors
import signal
import tempfile
import unittest
from typing import Any
from unittest import mock

from kit import until
from prefork_service import places, reading
from prefork_service.configuration import Configuration, Group, configuration_in
from prefork_service.reading import ReaderProcess
from prefork_service.recipes import Told
from test_faults import SECONDS, FaultyTest

SITE = 'listeners = ["127.0.0.1:1"]\nworkers = 3\ntimeout = 9\n[service]\nprogram = ["sleep", "1"]\n'


class ConfigurationTest(unittest.TestCase):
    def test_another_process_is_told_all_of_it(self) -> None:
        group = Group(("a", "\udc80"), 7, "web", ("\1set A=b",), True, 1.5, 9)
        found = Configuration(
            b"text\xff", b"for master", "", ("refused pid", "why"), (group, Group(("b",))), ("/a",), (1, 2), 3, 60, 5, {"done": "/x"},
            {"command": ["y"], "after": 2.0}, {"/f": "A=b"}, {"/a": {"mode": 0o600}}, ("note",),
        )
        told = json.loads(json.dumps(found.as_json()))
        self.assertEqual(configuration_in(told), found)
        # One of a later version may tell more.
        told["groups"][0]["more"] = told["more"] = 1
        self.assertEqual(configuration_in(told), found)
        self.assertNotIn("A=b", repr(found))


class ReadingTest(unittest.TestCase):
    """The process by itself."""

    def setUp(self) -> None:
        room = tempfile.TemporaryDirectory(prefix="reading-")
        self.addCleanup(room.cleanup)
        self.room = pathlib.Path(room.name)
        self.file, self.events = self.room / "site.toml", selectors.DefaultSelector()
        self.file.write_text(SITE)
        self.taken: list[tuple[Any, str]] = []
        asked = {"config": str(self.file), "told": Told(place=str(self.room)).as_json(), "most_seconds": 0, "python": "/opt/python"}
        self.reading = ReaderProcess(self.events, asked, lambda found, why: self.taken.append((found, why)))
        self.addCleanup(self.end)

    def end(self) -> None:
        self.reading.end()
        self.assertTrue(until(lambda: self.reading.tend() or not self.reading.ended, SECONDS))

    def loop(self) -> bool:
        for key, _ in self.events.select(0.02):
            key.data(key.fileobj)
        self.reading.tend()
        return bool(self.taken)

    def read(self) -> tuple[Any, str]:
        self.taken.clear()
        self.reading.begin()
        self.assertTrue(until(self.loop, SECONDS))
        self.assertEqual((len(self.events.get_map()), self.reading.owes), (0, False))
        return self.taken[0]

    def test_what_a_file_says(self) -> None:
        found, why = self.read()
        self.assertEqual((why, found.fault, found.refusal, found.notes), ("", "", None, ()))
        self.assertEqual((found.addresses, found.sizes, found.workers, found.timeout), (("127.0.0.1:1",), (3,), 3, 9))
        self.assertEqual(found.groups[0].command[-2:], ("sleep", "1"))
        self.assertEqual(found.for_master, b'"listeners" = ["127.0.0.1:1"]\n"workers" = 3\n"timeout" = 9\n')
        self.file.write_text(SITE.replace('program = ["sleep", "1"]', 'wsgi = "m:a"'))
        self.assertEqual(self.read()[0].groups[0].command[0], "/opt/python")
        self.file.unlink()
        why = f"{self.file}: No such file or directory"
        self.assertEqual((self.read()[0].fault, self.read()[0].notes), (why, (why,)))

    def test_one_that_fails_is_told(self) -> None:
        with mock.patch.object(places, "READ", "/bin/true"):
            self.assertEqual(self.read(), (None, "prefork-read has failed"))
        with mock.patch.object(places, "READ", self.room / "none"), self.assertRaises(OSError):
            self.reading.begin()
        self.assertEqual((len(self.events.get_map()), self.reading.owes), (0, False))
        self.assertEqual(self.read()[1], "")

    def test_one_that_takes_too_long_is_given_up(self) -> None:
        os.mkfifo(self.room / "variables")
        self.file.write_text(SITE + 'environment_files = ["variables"]\n')
        with mock.patch.object(reading, "READING_SECONDS", 0.5):
            self.assertEqual(self.read(), (None, "it has not been read within 0.5 seconds"))

    def test_one_that_says_too_much_is_given_up(self) -> None:
        with mock.patch.object(reading, "MOST_READING_BYTES", 10):
            self.assertEqual(self.read(), (None, "it is too long"))

    def test_what_was_kept_from_the_word_by_a_fault_is_told_all_the_same(self) -> None:
        self.reading.take = mock.Mock(side_effect=[RuntimeError("once"), None])
        self.reading.begin()
        with self.assertRaises(RuntimeError):
            until(self.loop, SECONDS)
        self.loop()
        self.assertEqual([given.args[1] for given in self.reading.take.mock_calls], ["", reading.NOT_HEARD])
        self.assertFalse(self.reading.owes)

    def test_one_that_nobody_waits_for_is_not_heard(self) -> None:
        self.reading.begin()
        self.reading.end()
        self.assertFalse(self.loop())
        self.assertEqual(len(self.events.get_map()), 0)


class ServiceTest(FaultyTest):
    """A service whose configuration names a file that never ends."""

    more = {"READING": "10"}

    def reload(self) -> None:
        os.mkfifo(self.room / "variables")
        text = f'listeners = ["{self.address}"]\nworkers = 2\n[service]\nprogram = ["true"]\nenvironment_files = ["variables"]\n'
        (self.room / "site.toml").write_text(text)
        self.serve.send_signal(signal.SIGHUP)
        self.assertTrue(until(lambda: '"doing": "HUP"' in self.asked("status brief"), SECONDS))
        self.assertTrue(until(lambda: bool(self.children("prefork-read")), SECONDS))

    def serves_again(self) -> None:
        self.configure(3)
        self.assertTrue(until(self.serves, SECONDS), self.said.read_text())

    def test_the_service_goes_on_and_refuses_the_word(self) -> None:
        self.reload()
        self.assertIn("refused not-read", self.asked("HUP"))
        self.serves_again()

    def test_a_reader_that_is_killed_has_its_word_refused(self) -> None:
        self.reload()
        self.killed("prefork-read")
        self.assertTrue(until(lambda: "HUP: the configuration is not read: prefork-read has failed\n" in self.said.read_text(), SECONDS))
        self.serves_again()

    def test_a_master_that_ends_meanwhile_has_its_word_lost(self) -> None:
        self.reload()
        self.killed("supervise")
        self.assertTrue(until(lambda: not self.children("prefork-read"), SECONDS))
        self.assertTrue(until(lambda: "is started again" in self.said.read_text(), SECONDS))
        self.serves_again()

    def test_a_stop_comes_through(self) -> None:
        self.reload()
        self.serve.send_signal(signal.SIGQUIT)
        self.assertEqual(self.serve.wait(SECONDS), 0, self.said.read_text())


if __name__ == "__main__":
    unittest.main()

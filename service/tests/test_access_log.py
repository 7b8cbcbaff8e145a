"""The access log of --wsgi: its lines, and that nobody waits for them."""
import dataclasses
import errno
import json
import os
import pathlib
import re
import tempfile
import time
import unittest
from unittest import mock

from kit import until
from prefork_service import access_log
from prefork_service.access_log import AccessLog, LoggedAnswer, combined, fault_of

ANSWER = LoggedAnswer("10.0.0.1", "", "GET", "/a?b=c", "1.1", 200, 1234, "http://x/", "curl/8", 0.25, 1_700_000_000.5, "1.2.0")


class ShapeTest(unittest.TestCase):
    def test_the_combined_form(self) -> None:
        with mock.patch.dict(os.environ, {"TZ": "IST-5:30"}):
            time.tzset()
            try:
                line = combined(ANSWER)
            finally:
                del os.environ["TZ"]
                time.tzset()
        self.assertEqual(line, '10.0.0.1 - - [15/Nov/2023:03:43:20 +0530] "GET /a?b=c HTTP/1.1" 200 1234 "http://x/" "curl/8"\n')

    def test_nothing_that_a_client_says_ends_a_field_or_a_line(self) -> None:
        evil = 'a"b\\c\nd\x1b\xe9\u20ac'
        answer = dataclasses.replace(ANSWER, target=evil, user=evil, agent=evil, referer=evil, method=evil, version=evil)
        line = combined(answer)
        self.assertEqual((line.count("\n"), line.count('"')), (1, 6))
        self.assertIn(r"a\x22b\x5Cc\x0Ad\x1B\xE9", line)
        self.assertTrue(line.isascii() and line[:-1].isprintable())
        told = access_log.as_json(answer)
        self.assertEqual(told.count("\n"), 1)
        self.assertEqual(json.loads(told)["status"], 200)

    def test_a_request_that_was_none(self) -> None:
        line = combined(dataclasses.replace(ANSWER, method="", target="", status=400))
        self.assertIn('] "-" 400 1234 ', line)

    def test_json(self) -> None:
        told = json.loads(access_log.as_json(dataclasses.replace(ANSWER, target="/\xc3\xa9")))
        self.assertEqual(told, {
            "time": "2023-11-14T22:13:20.500Z", "client": "10.0.0.1", "user": "", "method": "GET", "target": "/é", "version": "1.1",
            "status": 200, "size": 1234, "referer": "http://x/", "agent": "curl/8", "seconds": 0.25, "worker": "1.2.0",
        })


class AccessLogTest(unittest.TestCase):
    def setUp(self) -> None:
        room = tempfile.TemporaryDirectory()
        self.addCleanup(room.cleanup)
        self.path = pathlib.Path(room.name) / "access.log"
        said = mock.patch("prefork_service.access_log.print", create=True)
        self.said = said.start()
        self.addCleanup(said.stop)

    def lines(self, path: pathlib.Path | None = None) -> list[str]:
        return (path or self.path).read_text().splitlines()

    def test_a_renamed_file_has_all_lines_from_before_it_was_opened_anew(self) -> None:
        log, old = AccessLog(str(self.path), "combined"), self.path.with_name("old")
        self.assertTrue(until(self.path.exists))
        for number in range(50):
            log.note(dataclasses.replace(ANSWER, size=number))
        self.path.rename(old)
        log.reopen()
        self.assertEqual(len(self.lines(old)), 50)
        log.note(ANSWER)
        log.finish(20)
        self.assertEqual((len(self.lines(old)), len(self.lines())), (50, 1))
        self.assertEqual(self.path.stat().st_mode & 0o007, 0)

    def test_nobody_waits_for_a_file_that_takes_nothing(self) -> None:
        """A pipe without a reader holds the thread that writes, and nobody else; what is too much is lost and counted."""
        os.mkfifo(self.path)
        log = AccessLog(str(self.path), "json")
        with mock.patch.object(access_log, "MOST_LOG_WAITING", 2000):
            for _ in range(100):
                log.note(ANSWER)
            log.reopen(0.05)
            log.finish(0.05)
        kept = 100 - log.lost
        self.assertTrue(0 < kept < 20, kept)
        with open(self.path) as reader:
            self.assertEqual([json.loads(reader.readline())["status"] for _ in range(kept)], [200] * kept)

    def test_a_full_disk_is_said_once_and_what_is_lost_is_counted(self) -> None:
        log = AccessLog(str(self.path), "combined")
        self.assertTrue(until(self.path.exists))
        first, real = len(combined(ANSWER)) + 5, os.write

        def write(file: int, text: bytes) -> int:
            """A disk with room for a line and a piece."""
            room = first - self.path.stat().st_size
            if room <= 0:
                raise OSError(errno.ENOSPC, "No space left on device")
            return real(file, text[:room])
        with mock.patch.object(access_log.os, "write", write):
            for _ in range(3):
                log.note(ANSWER)
            log.finish(20)
            self.assertTrue(until(lambda: log.lost == 2))
            log.note(ANSWER)
            self.assertTrue(until(lambda: log.lost >= 3))
        log.note(ANSWER)
        log.finish(20)
        self.said.assert_called_once()
        # The line that was cut does not run into the next one.
        whole = re.compile(re.escape(combined(ANSWER).partition(" [")[0]) + r" \[.*\] \"GET.*\"curl/8\"")
        self.assertEqual([bool(whole.fullmatch(line)) for line in self.lines()], [True, False, True])

    def test_a_folder_that_is_missing(self) -> None:
        gone = self.path.parent / "gone" / "access.log"
        self.assertEqual(fault_of(str(gone)), f"{gone.parent}: No such file or directory")
        self.assertEqual(fault_of(str(self.path.parent)), f"{self.path.parent}: it is a folder")
        self.assertIsNone(fault_of(str(self.path)))
        log = AccessLog(str(gone), "combined")
        log.note(ANSWER)
        log.finish(20)
        self.assertEqual(log.lost, 1)
        gone.parent.mkdir()
        log.note(ANSWER)
        log.finish(20)
        self.assertTrue(until(lambda: gone.exists() and len(self.lines(gone)) == 1))
        self.said.assert_called_once()


if __name__ == "__main__":
    unittest.main()

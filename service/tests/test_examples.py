"""The examples of commands that answer a question: what they see of new workers, and their status."""
import http.server
import json
import os
import pathlib
import signal
import socket
import subprocess
import sys
import tempfile
import unittest

from kit import SERVICE

EXAMPLES = SERVICE / "examples"
SECONDS = 120


class Page(http.server.BaseHTTPRequestHandler):
    """A page with the status of its process."""

    status = 200

    def do_GET(self) -> None:
        self.send_response(self.status)
        self.end_headers()

    def log_message(self, *_: object) -> None:
        pass


def serve(listener: socket.socket, status: int) -> int:
    """A process that accepts at a socket beside others."""
    number = os.fork()
    if not number:
        try:
            Page.status = status
            server = http.server.HTTPServer(("127.0.0.1", 0), Page, bind_and_activate=False)
            server.socket.close()
            server.socket = listener
            server.serve_forever()
        finally:
            os._exit(1)
    return number


class AnswersTest(unittest.TestCase):
    def setUp(self) -> None:
        self.listener = socket.create_server(("127.0.0.1", 0))
        self.addCleanup(self.listener.close)
        self.address = f"127.0.0.1:{self.listener.getsockname()[1]}"

    def worker(self, status: int) -> int:
        number = serve(self.listener, status)
        self.addCleanup(os.waitpid, number, 0)
        self.addCleanup(os.kill, number, signal.SIGKILL)
        return number

    def asked(self, workers: list[int], *more: str) -> tuple[int, str]:
        environment = {**os.environ, "PREFORK_NEW_WORKERS": " ".join(map(str, workers)), "PREFORK_NEW_ADDRESSES": f"/run/x {self.address}"}
        command = [sys.executable, EXAMPLES / "answers_of_new.py", "--times", "3", *more, "/x"]
        found = subprocess.run(command, env=environment, capture_output=True, text=True, timeout=SECONDS)
        self.assertEqual(found.stderr, "")
        return found.returncode, found.stdout

    def test_only_answers_of_new_workers_count(self) -> None:
        old, new = self.worker(500), [self.worker(200), self.worker(200)]
        status, said = self.asked(new, "--within", "60")
        self.assertEqual(status, 0, said)
        self.assertIn("each of 2 new workers has answered at least 3 times; ", said)
        status, said = self.asked([old], "--within", "60")
        self.assertEqual((status, said), (1, f"the new worker {old} has answered 500, after 0 good answers of new workers\n"))
        status, said = self.asked([old], "--within", "60", "--status", "500")
        self.assertEqual(status, 0, said)

    def test_new_workers_that_answer_too_seldom_or_not_at_all(self) -> None:
        self.worker(200)
        status, said = self.asked([1 << 22], "--within", "1")
        self.assertEqual(status, 1)
        self.assertIn(f"within 1 s new workers have answered too seldom: 0 by {1 << 22}; ", said)
        self.assertEqual(self.asked([], "--within", "1"), (1, "there is no new worker, or no address with a port\n"))
        self.address = "127.0.0.1:1"
        status, said = self.asked([1], "--within", "1")
        self.assertEqual((status, said), (1, "no answer: [Errno 111] Connection refused\n"))


class ErrorsTest(unittest.TestCase):
    def asked(self, counts: list[tuple[int, int]], *more: str, question: int = 1) -> tuple[int, str]:
        """What it says where the status has these answers, and of them those that have failed, one pair at each look."""
        with tempfile.TemporaryDirectory() as room:
            told, program = pathlib.Path(room) / "told", pathlib.Path(room) / "ctl"
            lines = [json.dumps({"requests": {"generations": {"1.1": {"5xx": 99}, "2.2": {"2xx": count - failed, "5xx": failed}}}}) for count, failed in counts]
            told.write_text("".join(f"{line}\n" for line in lines))
            program.write_text(f'#!/bin/sh\ntest "$*" = "--folder /x --json status" || exit 1\nhead -n 1 {told}\nif [ $(wc -l <{told}) -gt 1 ]; then sed -i 1d {told}; fi\n')
            program.chmod(0o755)
            environment = {**os.environ, "PREFORK_FOLDER": "/x", "PREFORK_NEW_GENERATION": "2.2", "PREFORK_QUESTION": str(question)}
            command = [sys.executable, EXAMPLES / "errors_of_new.py", "--prefork-ctl", program, *more]
            found = subprocess.run(command, env=environment, capture_output=True, text=True, timeout=SECONDS)
        self.assertEqual(found.stderr, "")
        return found.returncode, found.stdout

    def test_what_has_failed(self) -> None:
        few = ("--seconds", "0", "--least", "100", "--most", "2")
        said = "{} of {} answers of generation 2.2 have failed{}\n".format
        self.assertEqual(self.asked([(200, 4)], *few), (0, said(4, 200, "")))
        self.assertEqual(self.asked([(200, 5)], *few), (1, said(5, 200, "")))
        self.assertEqual(self.asked([(99, 0)], *few), (1, said(0, 99, ": at least 100 answers are wanted")))
        # At question 2 what was answered before does not count; and much that has failed is seen before the end.
        self.assertEqual(self.asked([(200, 50), (300, 51)], *few, question=2), (0, said(1, 100, "")))
        self.assertEqual(self.asked([(0, 0), (10, 3)], "--seconds", "1000", "--least", "100", "--most", "2"), (1, said(3, 10, "")))


if __name__ == "__main__":
    unittest.main()

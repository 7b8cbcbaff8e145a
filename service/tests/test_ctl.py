"""prefork-ctl ends with a status and one line, whatever it is answered and wherever its output goes."""
import json
import os
import pathlib
import signal
import socket
import subprocess
import tempfile
import threading
import unittest
from typing import Any

from kit import BIN, until

SECONDS = 60
DONE = b"word HUP\n1 m1 census 1.1 : counted 0-1\ndone cause none pid no-file\n"
BACK = DONE.replace(b"done cause none", b"rolled-back cause 1")


class StartingTest(unittest.TestCase):
    """A service that has noted its number, and does not listen yet."""

    def test_a_service_that_starts_is_waited_for_and_another_process_is_not(self) -> None:
        with tempfile.TemporaryDirectory() as room:
            folder = pathlib.Path(room)
            other = subprocess.Popen(["sleep", "600"])
            self.addCleanup(other.wait)
            self.addCleanup(other.kill)
            (folder / "serve.pid").write_text(f"{other.pid}\n")
            asked = [BIN / "prefork-ctl", "--folder", room, "HUP"]
            none = subprocess.run(asked, capture_output=True, text=True, timeout=SECONDS)
            self.assertEqual((none.returncode, none.stderr.count("\n")), (1, 1))
            self.assertIn(f"no service in {room}: No such file or directory", none.stderr)
            code = f"import ctypes, time; ctypes.CDLL(None).prctl(15, b'prefork-serve'); print(flush=True); time.sleep({SECONDS})"
            serve = subprocess.Popen(["python3", "-c", code], stdout=subprocess.PIPE)
            self.addCleanup(serve.wait)
            self.addCleanup(serve.kill)
            assert serve.stdout
            self.addCleanup(serve.stdout.close)
            serve.stdout.readline()
            (folder / "serve.pid").write_text(f"{serve.pid}\n")
            waits = subprocess.Popen(asked, stdout=subprocess.PIPE, stderr=subprocess.PIPE, text=True)
            assert waits.stderr
            self.assertEqual(waits.stderr.readline(), "prefork-ctl: the service is starting\n")
            with socket.socket(socket.AF_UNIX) as listener:
                listener.bind(str(folder / "ctl.sock"))
                listener.listen()
                asker, _ = listener.accept()
                asker.recv(100)
                asker.sendall(DONE)
                asker.close()
                self.assertEqual(waits.communicate(timeout=SECONDS)[0], DONE.decode())


class CtlTest(unittest.TestCase):
    """A service that answers what a test says."""

    def setUp(self) -> None:
        room = tempfile.TemporaryDirectory()
        self.addCleanup(room.cleanup)
        self.room = pathlib.Path(room.name)
        (self.room / "run").mkdir()
        self.listener = socket.socket(socket.AF_UNIX)
        self.listener.bind(str(self.room / "run" / "ctl.sock"))
        self.listener.listen()
        self.answers: list[bytes] = [DONE]
        self.asked: list[str] = []
        self.keeps = False
        self.kept: list[socket.socket] = []
        self.thread = threading.Thread(target=self.serve, daemon=True)
        self.thread.start()
        self.addCleanup(self.end)

    def end(self) -> None:
        self.listener.shutdown(socket.SHUT_RDWR)
        self.thread.join()
        self.listener.close()
        for one in self.kept:
            one.close()

    def serve(self) -> None:
        while True:
            try:
                asker, _ = self.listener.accept()
            except OSError:
                return
            self.asked.append(asker.recv(100).decode())
            asker.sendall(self.answers[min(len(self.asked), len(self.answers)) - 1])
            if self.keeps:
                self.kept.append(asker)
            else:
                asker.close()

    def ctl(self, *words: str, shell: str = "", **given: Any) -> subprocess.CompletedProcess:
        command = ["sh", "-c", f'"$@" {shell}', "sh", BIN / "prefork-ctl", *words] if shell else [BIN / "prefork-ctl", *words]
        environment = {name: text for name, text in os.environ.items() if name != "PYTHONUNBUFFERED"}
        found = subprocess.run(command, cwd=self.room, env=environment, capture_output=True, text=True, timeout=SECONDS, **given)
        self.assertNotIn("Traceback", found.stderr)
        self.assertNotIn("Exception", found.stderr)
        return found

    def test_an_answer_that_is_none_of_a_service(self) -> None:
        for answer in (b"\xff\xfe\x00\n", b"{}\n", b"[]\n", b"{\n", b"1\n", b'"x"\n', b'{"brief": true}\n', b"[" * 3000 + b"\n", b'{"service": 3}\n', b"\n\n"):
            with self.subTest(answer[:20]):
                self.answers, self.asked = [answer], []
                found = self.ctl("status")
                self.assertEqual((found.returncode, found.stdout), (1, ""))
                self.assertEqual(found.stderr.count("\n"), 1, found.stderr)
                self.assertIn("of one version?", found.stderr)
                for words in (("top",), ("plan", "HUP"), ("HUP",), ("--json", "HUP"), ("--wait", "serves", "--seconds", "0", "status")):
                    self.assertLessEqual(self.ctl(*words).stderr.count("\n"), 1, words)

    def test_nothing_and_half_an_answer(self) -> None:
        for answer in (b"", b"\n", b"  \n", b"note x\n"):
            self.answers = [answer]
            found = self.ctl("HUP")
            self.assertEqual((found.returncode, found.stderr), (1, "prefork-ctl: the service has ended before it answered\n"), answer)

    def test_an_output_that_is_full_closed_or_read_by_nobody(self) -> None:
        full = "prefork-ctl: standard output is not written: No space left on device\n"
        for answer, status in ((DONE, 0), (BACK, 3)):
            self.answers = [answer]
            for shell, wanted, said in ((">/dev/full", status or 1, full), (">&-", status, ""), ("2>/dev/full", status, ""), ("2>&-", status, ""),
                                        (">&- 2>&-", status, ""), ("<&- >&- 2>&-", status, ""), (">/dev/full 2>&-", status or 1, "")):
                with self.subTest(f"{shell} {status}"):
                    found = self.ctl("HUP", shell=shell)
                    self.assertEqual((found.returncode, found.stderr), (wanted, said))
            with self.subTest("a reader that has gone"):
                read, write = os.pipe()
                os.close(read)
                process = subprocess.run([BIN / "prefork-ctl", "HUP"], cwd=self.room, stdout=write, stderr=subprocess.PIPE, text=True, timeout=SECONDS)
                os.close(write)
                self.assertEqual((process.returncode, process.stderr), (status, ""))

    def test_an_interrupt(self) -> None:
        self.answers, self.keeps = [b""], True
        with subprocess.Popen([BIN / "prefork-ctl", "HUP"], cwd=self.room, stdout=subprocess.PIPE, stderr=subprocess.PIPE, text=True) as sent:
            self.assertTrue(until(lambda: self.asked, SECONDS))
            sent.send_signal(signal.SIGINT)
            try:
                said = sent.communicate(timeout=SECONDS)
            finally:
                sent.kill()
        self.assertEqual((sent.returncode, said), (130, ("", "prefork-ctl: interrupted; a word that was sent is carried out all the same\n")))

    def test_reasons_that_do_not_come_are_not_waited_for(self) -> None:
        self.answers, self.keeps = [BACK], True
        found = self.ctl("HUP")
        self.assertEqual((found.returncode, found.stdout.encode()), (3, BACK))

    def test_certify_takes_the_status_in_short(self) -> None:
        master = self.room / "records" / "1"
        master.mkdir(parents=True)
        (master / "from.toml").write_text("")
        (master / "blocks.1").write_text("word tick 0\ndone cause none pid no-file\n")
        accepts = self.room / "accepts"
        accepts.write_text('#!/bin/sh\necho \'{"accepted":1,"patterns":[[]],"life":{"words":1,"open":[],"short":[]}}\'\n')
        accepts.chmod(0o755)
        for program, status, line in (
            (str(accepts), 0, ": 1 block is accepted, from the first on\n  open throughout none\n  short none\n"),
            ("/bin/true", 1, ": nothing was compared: status 0, without an answer\n"),
            ("/missing", 1, ": nothing was compared: /missing: No such file or directory\n"),
        ):
            service = {"process": 7, "seconds": 9, "folder": "/x", "prefork": program, "records": str(master.parent)}
            self.asked.clear()
            self.answers = [b"", json.dumps({"brief": True, "service": service}).encode() + b"\n"]
            found = self.ctl("certify")
            self.assertEqual((found.returncode, found.stderr, self.asked), (status, "", ["status\n", "status brief\n"]))
            self.assertIn(line, found.stdout)

    def test_a_status_that_does_not_come_is_asked_for_in_short(self) -> None:
        brief = b'{"brief": true, "service": {"process": 7, "seconds": 9, "folder": "/x"}, "line": "serves: wanted 2, runs 2", "state": "serves", ' \
            b'"addresses": [], "generation": "1.1", "workers": [0, 1], "master": 8, "master_restarts": 0, "doing": null, "question": 0, ' \
            b'"waiting": 0, "keeper": {"process": 9, "restarts": 0}}\n'
        self.answers = [b"", brief]
        found = self.ctl("status")
        self.assertEqual((found.returncode, self.asked), (0, ["status\n", "status brief\n"]))
        self.assertIn("state       serves: wanted 2, runs 2\n", found.stdout)
        self.assertIn("this is the status in short", found.stderr)
        self.asked.clear()
        found = self.ctl("top")
        self.assertEqual((found.returncode, found.stderr.count("\n")), (1, 1))


if __name__ == "__main__":
    unittest.main()

"""A question that answers itself: what its command is told, what its end means, and who else may answer."""
import argparse
import json
import os
import pathlib
import shlex
import signal
import socket
import subprocess
import sys
import tempfile
import time
import unittest
from typing import Any

from kit import BIN, PROGRAMS, built, until
from prefork_service.answering import Verdict, ask_of, command_of, fault_of_options, seconds_of, told_of, variables_of, verdict_of
from prefork_service.questions import Answer, Ask, answer_in

UPGRADE = "USR2 attended"
# The longest time that is waited for something.
SECONDS = 120
STATUS: dict[str, Any] = {
    "generation": "1.9", "question": 1, "service": {"folder": "/srv/run"},
    "asking": {"number": 3, "old": ["127.0.0.1:1"], "new": ["127.0.0.1:1", "/run/x"]},
    "workers": [{"generation": "1.9", "number": 0, "process": 11}, {"generation": "1.9", "number": 1, "process": None}],
    "others": [
        {"generation": "1.8", "number": 0, "process": 5}, {"generation": "2.10", "number": 0, "process": 21}, {"generation": "2.10", "number": 1, "process": 22},
    ],
}
# Of a child that a command leaves, and that writes no more.
LEAVES = "sleep 1000 & echo $! >child.new; mv child.new child; echo left"


def ends(process: int) -> bool:
    """Whether a process has ended, or nobody has buried it yet."""
    try:
        return pathlib.Path(f"/proc/{process}/stat").read_text().rpartition(")")[2].split()[0] == "Z"
    except OSError:
        return True


class CommandTest(unittest.TestCase):
    """The command by itself."""

    def setUp(self) -> None:
        room = tempfile.TemporaryDirectory()
        self.addCleanup(room.cleanup)
        self.room = pathlib.Path(room.name)

    def verdict(self, text: str, why: str = "", within: float = SECONDS) -> Verdict:
        program = self.room / "ask"
        program.write_text(f"#!/bin/sh\ncd {self.room}\n{text}\n")
        program.chmod(0o755)
        return verdict_of(Ask((str(program), "x y"), 0.0, within), told_of(UPGRADE, STATUS), lambda: why)

    def test_its_status_is_the_answer(self) -> None:
        for text, word, why in (("exit 0", "go", "status 0"), ("exit 3", "back", "status 3"), ("kill -9 $$", "back", "signal 9"), ("exit 127", "back", "status 127")):
            found = self.verdict(f"echo heard $1; {text}")
            self.assertEqual((found.word, found.lines), (word, ("heard x y",)), text)
            self.assertTrue(found.why.endswith(f"ask has ended with {why}"), found.why)

    def test_one_that_cannot_be_started_goes_back(self) -> None:
        found = verdict_of(Ask((str(self.room / "nothing"),)), told_of(UPGRADE, STATUS), lambda: "")
        self.assertEqual((found.word, found.lines), ("back", ()))
        self.assertIn("can't be started", found.why)
        (self.room / "no-program").write_text("x")
        (self.room / "no-program").chmod(0o755)
        self.assertEqual(verdict_of(Ask((str(self.room / "no-program"),)), told_of(UPGRADE, STATUS), lambda: "").word, "back")

    def test_a_limit_of_time_kills_it_with_what_it_has_started(self) -> None:
        began = time.monotonic()
        found = self.verdict(f"{LEAVES}; sleep 1000", within=3.0)
        self.assertLess(time.monotonic() - began, SECONDS)
        self.assertEqual((found.word, found.lines), ("back", ("left",)))
        self.assertIn("has not ended within 3 s, and is killed", found.why)
        self.assertTrue(until(lambda: ends(int((self.room / "child").read_text()))))

    def test_what_it_leaves_with_its_output_open_is_not_waited_for(self) -> None:
        began = time.monotonic()
        found = self.verdict(LEAVES)
        os.kill(int((self.room / "child").read_text()), signal.SIGKILL)
        self.assertEqual((found.word, found.lines), ("go", ("left",)))
        self.assertLess(time.monotonic() - began, SECONDS / 2)

    def test_the_last_lines_of_much_are_kept(self) -> None:
        found = self.verdict("yes 'much was said' 2>/dev/null | head -n 100000; printf 'the\\tend\\033[31m'")
        self.assertEqual((found.word, len(found.lines), found.lines[-2:]), ("go", 10, ("much was said", "the    end[31m")))

    def test_an_operator_is_faster(self) -> None:
        found = self.verdict("sleep 1000", "an operator has answered")
        self.assertEqual((found.word, found.why), ("back", "an operator has answered"))

    def test_it_is_told_both_generations(self) -> None:
        told = told_of(UPGRADE, STATUS)
        variables = variables_of(told)
        self.assertEqual(variables, {
            "PREFORK_WORD": UPGRADE, "PREFORK_FOLDER": "/srv/run", "PREFORK_QUESTION": "1", "PREFORK_OLD_GENERATION": "1.9",
            "PREFORK_OLD_WORKERS": "11", "PREFORK_OLD_ADDRESSES": "127.0.0.1:1", "PREFORK_NEW_GENERATION": "2.10",
            "PREFORK_NEW_WORKERS": "21 22", "PREFORK_NEW_ADDRESSES": "127.0.0.1:1 /run/x",
        })
        found = self.verdict("cat; echo; echo $PREFORK_NEW_WORKERS $LISTEN_FDS")
        self.assertEqual((json.loads(found.lines[0]), found.lines[1]), (told, "21 22"))
        self.assertEqual(told["new"]["workers"], [{"number": 0, "process": 21}, {"number": 1, "process": 22}])

    def test_it_does_not_outlive_prefork_ctl(self) -> None:
        code = "import sys; from prefork_service.answering import begun; p = begun(('sh', '-c', 'sleep 1000'), %r, {'PATH': '/bin:/usr/bin'}); " \
            "print(p.pid, flush=True); sys.stdin.read()" % told_of(UPGRADE, STATUS)
        given: dict[str, Any] = {"stdin": subprocess.PIPE, "stdout": subprocess.PIPE, "text": True, "cwd": BIN.parent}
        with subprocess.Popen([sys.executable, "-c", code], **given) as parent:
            assert parent.stdout and parent.stdin
            child = int(parent.stdout.readline())
            self.assertTrue(until(lambda: pathlib.Path(f"/proc/{child}/comm").read_text() in ("sh\n", "sleep\n")))
            parent.kill()
        self.assertTrue(until(lambda: ends(child)))


class OptionsTest(unittest.TestCase):
    def given(self, **more: Any) -> argparse.Namespace:
        return argparse.Namespace(**{"ask": None, "no_ask": False, "after": None, "ask_within": None, "word": UPGRADE.split(), **more})

    def test_what_answers(self) -> None:
        of_file = {"command": ["true", "x"], "after": 0, "within": 7.5}
        self.assertIsNone(ask_of(self.given(), None))
        self.assertEqual(ask_of(self.given(), {"command": ["true"]}), Ask(("true",), 10.0, 60.0))
        self.assertEqual(ask_of(self.given(), of_file), Ask(("true", "x"), 0, 7.5))
        self.assertEqual(ask_of(self.given(after=2.0), of_file), Ask(("true", "x"), 2.0, 7.5))
        self.assertEqual(ask_of(self.given(ask=("false",), ask_within=1.0), of_file), Ask(("false",), 0, 1.0))
        self.assertIsNone(ask_of(self.given(no_ask=True), of_file))

    def test_options_that_do_not_fit(self) -> None:
        self.assertIsNone(fault_of_options(self.given(ask=("true",), after=0.0)))
        for more, said in (
            ({"word": ["HUP"], "after": 0.0}, "--after is an option of a word that asks: USR2 attended"),
            ({"word": [], "no_ask": True}, "--no-ask is an option of a word that asks"), ({"ask_within": 0.0}, "--ask-within: it takes more than 0 seconds"),
            ({"ask": ("true",), "no_ask": True}, "--no-ask goes with no other"),
        ):
            self.assertIn(said, fault_of_options(self.given(**more)) or "")

    def test_texts_that_are_no_command_and_no_time(self) -> None:
        self.assertEqual(command_of("sh -c 'exit 0'"), ("sh", "-c", "exit 0"))
        for text in ("", "  ", "'x", "no-such-program x", "/etc/passwd"):
            with self.assertRaises(argparse.ArgumentTypeError):
                command_of(text)
        self.assertEqual(seconds_of("0.5"), 0.5)
        for text in ("", "x", "-1", "nan", "inf", "86401"):
            with self.assertRaises(argparse.ArgumentTypeError):
                seconds_of(text)

    def test_answers(self) -> None:
        self.assertEqual(answer_in("go"), Answer("go"))
        self.assertEqual(answer_in("back 12 why\nline\n"), Answer("back", 12, ("why", "line")))
        self.assertEqual(answer_in("go 3"), Answer("go", 3))
        for text in ("", "goes", "go x", "go -1", "HUP", "back 1x", "go " + "1" * 30):
            self.assertIsNone(answer_in(text), text)


class AnsweringTest(unittest.TestCase):
    """A service whose master only plays."""

    @classmethod
    def setUpClass(cls) -> None:
        built()

    def setUp(self) -> None:
        room = tempfile.TemporaryDirectory(prefix="answering-")
        self.addCleanup(room.cleanup)
        self.room = pathlib.Path(room.name)
        self.serve: Any = None

    def begin(self, service: str = "") -> None:
        (self.room / "site.toml").write_text(f'command = ["false"]\nlisteners = []\nworkers = 1\n{service}')
        said = open(self.room / "said", "w+")
        self.addCleanup(said.close)
        command = [BIN / "prefork-serve", "--prefork", PROGRAMS / "asking.py", "site.toml"]
        self.serve = subprocess.Popen(command, cwd=self.room, stderr=said, stdin=subprocess.DEVNULL)
        self.addCleanup(self.end)
        self.assertTrue(until(lambda: "tick" in self.told()))

    def end(self) -> None:
        if self.serve.poll() is None:
            self.sent("back").communicate(timeout=SECONDS)
            self.sent("QUIT").communicate(timeout=SECONDS)
        self.assertEqual(self.serve.wait(SECONDS), 0)

    def told(self) -> str:
        file = self.room / "told"
        return file.read_text() if file.exists() else ""

    def answered(self) -> list[str]:
        """What the master was told, but for ticks, since the first upgrade began."""
        return [line for line in self.told().partition(f"{UPGRADE}\n")[2].splitlines() if not line.startswith("tick ")]

    def sent(self, *words: str) -> subprocess.Popen:
        return subprocess.Popen([BIN / "prefork-ctl", *words], cwd=self.room, stdout=subprocess.PIPE, stderr=subprocess.PIPE, text=True)

    def upgrade(self, command: str, *more: str) -> subprocess.Popen:
        return self.sent("--ask", shlex.join(["sh", "-c", command]), "--after", "0", *more, UPGRADE)

    def asks(self) -> str:
        return self.sent().communicate(timeout=SECONDS)[0].partition(":")[0]

    def journal(self) -> str:
        return (self.room / "run" / "journal").read_text()

    def wait_for(self, name: str) -> None:
        self.assertTrue(until((self.room / name).exists))

    def test_both_questions_are_answered_and_noted(self) -> None:
        self.begin()
        sent = self.upgrade("echo looked at $PREFORK_QUESTION")
        block, said = sent.communicate(timeout=SECONDS)
        self.assertEqual((sent.returncode, block), (0, f"word {UPGRADE}\ndone cause none pid no-file\n"))
        self.assertEqual(self.answered(), ["WINCH", "WINCH"])
        for question in (1, 2):
            self.assertIn(f"prefork-ctl: question {question} is answered: go: sh has ended with status 0\nprefork-ctl:     looked at {question}\n", said)
            self.assertIn(f" question {question} is answered: go: sh has ended with status 0\n", self.journal())
            self.assertIn(f" question {question}: looked at {question}\n", self.journal())

    def test_back_at_each_question(self) -> None:
        self.begin()
        for command, question in (("exit 1", 1), ("exit $((PREFORK_QUESTION - 1))", 2)):
            sent = self.upgrade(command)
            self.assertEqual((sent.communicate(timeout=SECONDS)[0].splitlines()[-1], sent.returncode), ("rolled-back cause 1 pid no-file", 3))
            self.assertIn(f" question {question} is answered: back: sh has ended with status 1\n", self.journal())
        self.assertEqual(self.answered(), ["HUP", UPGRADE, "WINCH", "HUP"])

    def test_one_that_takes_too_long_goes_back(self) -> None:
        self.begin()
        sent = self.upgrade("sleep 1000", "--ask-within", "1")
        self.assertIn("question 1 is answered: back: sh has not ended within 1 s, and is killed", sent.communicate(timeout=SECONDS)[1])
        self.assertEqual(sent.returncode, 3)

    def test_an_answer_by_hand_is_faster_and_the_command_is_ended(self) -> None:
        self.begin()
        sent = self.upgrade("echo $$ >at$PREFORK_QUESTION.new; mv at$PREFORK_QUESTION.new at$PREFORK_QUESTION; exec sleep 1000")
        for question, word in ((1, "go"), (2, "back")):
            self.wait_for(f"at{question}")
            self.assertEqual(self.sent(word).communicate(timeout=SECONDS)[0], f"word {word}\nanswered {question} {word}\n")
            self.assertTrue(until(lambda: ends(int((self.room / f"at{question}").read_text()))))
        self.assertEqual((sent.communicate(timeout=SECONDS)[0].splitlines()[-1], sent.returncode), ("rolled-back cause 1 pid no-file", 3))
        self.assertEqual(self.answered(), ["WINCH", "HUP"])

    def test_an_answer_to_another_question_is_refused(self) -> None:
        self.begin()
        sent = self.sent(UPGRADE)
        self.assertTrue(until(lambda: self.asks() == "asks 1"))
        for number, said in ((2, "refused not-asked"), (0, "refused not-asked"), (1, "answered 1 go")):
            with socket.socket(socket.AF_UNIX) as service:
                service.connect(str(self.room / "run" / "ctl.sock"))
                service.sendall(f"go {number} why\n".encode())
                self.assertEqual(service.makefile().read().splitlines()[-1], said)
        self.assertTrue(until(lambda: self.asks() == "asks 2"))
        self.sent("go").communicate(timeout=SECONDS)
        self.assertEqual(sent.wait(SECONDS), 0)
        sent.communicate()

    def test_an_interrupt_leaves_the_question_to_people(self) -> None:
        self.begin()
        sent = self.upgrade("echo $$ >at.new; mv at.new at; exec sleep 1000")
        self.wait_for("at")
        sent.send_signal(signal.SIGINT)
        said = sent.communicate(timeout=SECONDS)[1]
        self.assertEqual(sent.returncode, 130)
        self.assertIn("question 1 is still asked: answer by prefork-ctl go, or prefork-ctl back", said)
        self.assertTrue(until(lambda: ends(int((self.room / "at").read_text()))))
        self.assertEqual((self.asks(), self.answered()), ("asks 1", []))

    def test_its_end_from_outside_goes_back_and_a_kill_leaves_the_question(self) -> None:
        self.begin()
        for number in (signal.SIGTERM, signal.SIGHUP):
            sent = self.upgrade("echo $$ >at.new; mv at.new at; exec sleep 1000")
            self.wait_for("at")
            sent.send_signal(number)
            block, said = sent.communicate(timeout=SECONDS)
            self.assertEqual((block.splitlines()[-1], sent.returncode), ("rolled-back cause 1 pid no-file", 3))
            self.assertIn("question 1 is answered: back: prefork-ctl was told to end", said)
            self.assertTrue(until(lambda: ends(int((self.room / "at").read_text()))))
            (self.room / "at").unlink()
        sent = self.upgrade("echo $$ >at.new; mv at.new at; exec sleep 1000")
        self.wait_for("at")
        sent.kill()
        sent.communicate(timeout=SECONDS)
        self.assertTrue(until(lambda: ends(int((self.room / "at").read_text()))))
        self.assertEqual(self.asks(), "asks 1")

    def test_the_keys_of_the_configuration_answer_unless_the_command_line_does(self) -> None:
        self.begin('[service]\nask = ["sh", "-c", "echo by the file; exit 1"]\nask_after = 0\n')
        sent = self.sent(UPGRADE)
        self.assertIn("prefork-ctl:     by the file\n", sent.communicate(timeout=SECONDS)[1])
        self.assertEqual(sent.returncode, 3)
        sent = self.upgrade("exit 0")
        sent.communicate(timeout=SECONDS)
        self.assertEqual(sent.returncode, 0)
        sent = self.sent("--no-ask", UPGRADE)
        self.assertTrue(until(lambda: self.asks() == "asks 1"))
        self.sent("back").communicate(timeout=SECONDS)
        self.assertNotIn("answers in", sent.communicate(timeout=SECONDS)[1])

    def test_times_without_a_command_are_said(self) -> None:
        self.begin()
        sent = self.sent("--after", "0", UPGRADE)
        self.assertTrue(until(lambda: self.asks() == "asks 1"))
        self.sent("back").communicate(timeout=SECONDS)
        self.assertIn("prefork-ctl: no command answers: --ask names one, or the key ask", sent.communicate(timeout=SECONDS)[1])


if __name__ == "__main__":
    unittest.main()

"""What masters print is read in one module, as docs/formats/blocks.md has it."""
import pathlib
import re
import unittest

from kit import SERVICE
from prefork_service import blocks
from prefork_service.blocks import OUTCOMES, PLAIN, block_of, call_in, calls_in, ends_block, killed_in, logged, question_in, report_of

FORMATS = SERVICE.parent / "docs" / "formats" / "blocks.md"
PACKAGE = SERVICE / "prefork_service"
# What a module does that looks into a text, and what only texts of a master have.
LOOKS = re.compile(r"startswith\(|endswith\(|\bre\.\w+\(|\bin block\b|\.find\(")
OF_MASTER = re.compile(r"m\\d|word (?:beat|tick|HUP|\.)|\"(?:tick|done|rolled-back|degraded|lost|refused|unread|asks) ?[\"A-Z]| cause |killed worker|prefork\\\]|"
                       r"life words|open throughout|least ready|not healed|prefork: certify")
# The service says these itself: questions to those that wait, and mistakes of a program.
OWN = {"ctl.py": 'line.startswith("asks ")'}


def finds(line: str) -> bool:
    """Whether a line of a source looks into a text of a master."""
    return bool(LOOKS.search(line) and OF_MASTER.search(line))


class BlocksTest(unittest.TestCase):
    def test_calls(self) -> None:
        call = call_in("3 m2 fork 1.2 7 fds 3-4 : forked")
        assert call
        self.assertEqual((call.number, call.image, call.kind, call.generation, call.worker, call.name), (3, 2, "fork", "1.2", 7, "1.2.7"))
        self.assertTrue(call.is_plain)
        census = call_in("4 m1 census 1.2 : counted 0-2,5")
        assert census
        self.assertEqual((census.generation, census.worker, census.name, census.counted()), ("1.2", None, "", [0, 1, 2, 5]))
        none = call_in("4 m1 census 1.2 : counted none")
        self.assertEqual(none and none.counted(), [])
        for line, about, answer, given in (
            ("1 m1 open [::1]:80 : opened 3", "[::1]:80", "opened", "3"), ("1 m1 open /run/a.sock : in-use", "/run/a.sock", "in-use", ""),
            ("9 m1 leave : ok", "", "ok", ""), ("2 m1 move-pid /run/a /run/a.oldbin : io-fault", "/run/a /run/a.oldbin", "io-fault", ""),
            ("7 m1 fork 1.2 0 : master-gone", "1.2 0", "master-gone", ""), ("5 m1 ask 1 : back", "1", "back", ""),
        ):
            call = call_in(line)
            assert call
            self.assertEqual((call.text, call.about, call.answer, call.given, call.why), (line, about, answer, given, ""))
        told = call_in("2 m1 await-ready 1.2 0 : gone: 127.0.0.1:80: Address already in use")
        assert told
        self.assertEqual((told.name, told.answer, told.why), ("1.2.0", "gone", "127.0.0.1:80: Address already in use"))
        for line in ("word HUP", "done cause none pid no-file", "nothing", "", "1 fork 1.2 0 : forked", "x m1 fork : ok"):
            self.assertIsNone(call_in(line))

    def test_reports(self) -> None:
        for text, outcome, side, lacks, cause, code in (
            ("done cause none pid no-file", "done", "", (), None, ""), ("rolled-back cause 3 pid in-place", "rolled-back", "", (), 3, ""),
            ("degraded target 0,2 cause 12 pid left", "degraded", "target", (0, 2), 12, ""), ("nothing", "nothing", "", (), None, ""),
            ("degraded old 1 cause 1 pid at-oldbin", "degraded", "old", (1,), 1, ""), ("refused C5 0 A3", "refused", "", (), None, "C5 0 A3"),
            ("unread W1", "unread", "", (), None, "W1"), ("lost cause 0 pid left", "lost", "", (), 0, ""), ("", "", "", (), None, ""),
        ):
            found = report_of(text)
            self.assertEqual((found.outcome, found.side, found.lacks, found.cause, found.code), (outcome, side, lacks, cause, code), text)
            self.assertEqual(ends_block(text), outcome in OUTCOMES)
            self.assertEqual(found.runs, outcome == "done" or side == "target")
            self.assertEqual(found.is_back, outcome == "rolled-back" or side == "old")
            self.assertEqual(found.is_of_file, code == "C5 0 A3")
        self.assertFalse(report_of("refused V1").is_of_file)

    def test_blocks(self) -> None:
        lines = ("1 m1 fork 1.2 0 : forked", "2 m1 await-ready 1.2 0 : gone", "3 m1 census 1.1 : counted 0-1")
        found = block_of("\n".join(["word USR2 attended", *lines, "rolled-back cause 2 pid no-file"]) + "\n")
        self.assertEqual((found.word, found.calls, found.cause), ("USR2 attended", calls_in(lines), call_in(lines[1])))
        self.assertEqual((block_of("unread W1\n").word, block_of("unread W1\n").cause), ("", None))
        self.assertEqual([found for line in ("word HUP", *lines) if (found := ends_block(line))], [])

    def test_lines_of_the_log(self) -> None:
        asked = logged("[INFO  prefork] asks 2: WINCH or QUIT goes on, HUP goes back")
        self.assertEqual(question_in(asked or ""), 2)
        for other in ("HUP: asks 1: x", "asks 3: x", "asks 1"):
            self.assertIsNone(question_in(other))
        self.assertIsNone(logged("asks 2: said by a worker"))
        self.assertEqual(killed_in("killed worker 1.2 3, process 7: no answer within 60 s"), ("1.2.3", "killed by its master: no answer within 60 s"))
        self.assertEqual(killed_in("killed master 2, process 7: no answer within 9 s"), ("adopt", "killed by its master: no answer within 9 s"))
        self.assertIsNone(killed_in("HUP: done"))

    def test_the_tables_are_those_of_the_formats(self) -> None:
        """A call or an outcome that is added to the formats is missed here."""
        text = FORMATS.read_text()
        rows = re.findall(r"^\| ((?:`[^`]+`(?:, )?)+) \| (`[^|]+) \|$", text[text.index("| call | answers |"):], re.M)
        plain = {}
        for calls, answers in rows:
            for call in re.findall(r"`([a-z0-9-]+)[^`]*`", calls):
                plain.setdefault(call, re.findall(r"`([a-z-]+)[^`]*`", answers)[0])
        self.assertEqual(plain, PLAIN)
        outcomes = re.findall(r"^\| `([a-z-]+)[^`]*` \|", text[text.index("| outcome | meaning |"):text.index("| note | where")], re.M)
        self.assertEqual({*outcomes, "refused", "unread", "nothing"}, set(OUTCOMES))

    def test_no_other_module_reads_such_texts(self) -> None:
        found = [
            f"{file.name}: {line.strip()}" for file in sorted(PACKAGE.glob("*.py")) if file.name != pathlib.Path(blocks.__file__).name
            for line in file.read_text().splitlines() if finds(line) and OWN.get(file.name, "\0") not in line
        ]
        self.assertEqual(found, [])
        for line in (
            'QUIT = re.compile(r"^\\d+ m\\d+ quit (\\S+) : ok$", re.M)', 'if report.startswith(("done", "degraded target")):',
            'if word.startswith("tick "):', 'BEAT = re.compile(r"word beat (\\d+)")', 'named = re.search(r" cause (\\d+) ", block)',
            'OPEN = re.compile(r"open throughout (\\S+) least ready .*")', 'said = re.match(r"prefork: certify (\\d+) (.*)", errors)',
        ):
            self.assertTrue(finds(line), line)


if __name__ == "__main__":
    unittest.main()

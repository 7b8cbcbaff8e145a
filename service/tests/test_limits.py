"""The limits for answers that masters are told."""
import os
import pathlib
import stat
import tempfile
import unittest
from unittest import mock

from prefork_service import limits as told
from prefork_service.bounds import end_seconds
from prefork_service.limits import MOST_TIMEOUT, answer_seconds, known, limits_of
from prefork_service.options import arguments, seconds_given
from prefork_service.recipes import Recipe, Runs


class LimitsTest(unittest.TestCase):
    def limits(self, *words: str, runs: Runs = Runs.PROGRAM) -> list[str]:
        """Those of a service whose workers have an adapter, or none."""
        given = arguments([*words, "a.toml", *(["--", "p"] if runs is Runs.PROGRAM else [])])
        recipe = Recipe(("p",), runs, ready_within=seconds_given(given.ready_within), finish=seconds_given(given.finish))
        return limits_of(answer_seconds(given.answer_within, None), recipe.seconds(), runs.has_adapter)

    def test_what_a_master_is_told(self) -> None:
        self.assertEqual(self.limits(), ["--answer-within", "60"])
        self.assertEqual(self.limits("--answer-within", "0"), [])
        self.assertEqual(self.limits("--answer-within", "+9"), ["--answer-within", "9"])
        self.assertEqual(self.limits("--answer-within", str(MOST_TIMEOUT)), ["--answer-within", str(MOST_TIMEOUT)])

    def test_an_adapter_ends_its_program_before_the_master_does(self) -> None:
        self.assertEqual(self.limits("--answer-within", "2"), ["--answer-within", "2", "--ready-within", "60"])
        for option in ("--ready-within", "--finish"):
            self.assertEqual(self.limits(option, "450"), ["--answer-within", "60"])
            self.assertEqual(self.limits(option, "450.5"), ["--answer-within", "60", "--ready-within", "481"])
            self.assertEqual(self.limits(option, "1e300")[2:], ["--ready-within", str(MOST_TIMEOUT)])
            self.assertEqual(self.limits(option, "soon"), ["--answer-within", "60"])

    def test_a_worker_without_an_adapter_has_what_is_said(self) -> None:
        for words, ready in (((), []), (("--ready-within", "3"), ["3"]), (("--finish", "0.5"), ["1"]),
                             (("--ready-within", "3", "--finish", "7.5"), ["8"]), (("--finish", "900"), ["900"])):
            wanted = ["--answer-within", "60", *(["--ready-within", *ready] if ready else [])]
            self.assertEqual(self.limits(*words, runs=Runs.COMMAND), wanted)
        self.assertEqual(self.limits("--answer-within", "0", "--finish", "7", runs=Runs.COMMAND), [])

    def test_the_command_line_goes_before_the_file(self) -> None:
        for told, in_file, wanted in ((None, None, 60), (None, 9, 9), (0, 9, 0), (5, None, 5), (None, 0, 0)):
            self.assertEqual(answer_seconds(told, in_file), wanted)

    def test_how_long_a_worker_may_take_to_end(self) -> None:
        for limits, wanted in (([], 0), (["--answer-within", "60"], 480), (["--answer-within", "2", "--ready-within", "5"], 5)):
            self.assertEqual(end_seconds(limits), wanted)

    def test_what_is_refused(self) -> None:
        for text in ("-1", "1.5", "", "x", str(MOST_TIMEOUT + 1)):
            with self.assertRaises(SystemExit), open(os.devnull, "w") as nowhere:
                with mock.patch("sys.stderr", nowhere):
                    self.limits(f"--answer-within={text}")

    def test_whether_a_program_knows_them(self) -> None:
        limits = ["--answer-within", "60"]
        with tempfile.TemporaryDirectory() as room:
            program = pathlib.Path(room) / "prefork"
            for script, seconds, wanted in (
                ("echo '  --answer-within <S>  Kill'", 60.0, limits), ("echo '  --other'", 60.0, []),
                ("false", 60.0, []), ("sleep 1000", 2.0, limits),
            ):
                program.write_text(f"#!/bin/sh\n[ \"$*\" = 'supervise --help' ] && exec {script}\n")
                program.chmod(stat.S_IRWXU)
                with mock.patch.object(told, "ASKING_SECONDS", seconds):
                    self.assertEqual(known(str(program), limits), wanted, script)
                self.assertEqual(known(str(program), []), [])
        self.assertEqual(known("/nonexistent", limits), [])


if __name__ == "__main__":
    unittest.main()

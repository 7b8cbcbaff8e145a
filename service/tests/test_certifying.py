"""Records that are certified: what is joined, what is compared, and what is said."""
import json
import pathlib
import shutil
import tempfile
import unittest
from typing import Any
from unittest import mock

from kit import SERVICE
from prefork_service import certifying
from prefork_service.certifying import certify
from prefork_service.verdicts import holds_of

DONE = "done cause none pid no-file\n"
START, HUP, TTIN = f"word tick 0\n{DONE}", f"word HUP\n{DONE}", f"word TTIN\n{DONE}"
USR2, ATTENDED = f"word USR2\n{DONE}", f"word USR2 attended\n{DONE}"
REFUSED, NOTHING = "word HUP\nrefused C1\n", "word HUP\nnothing\n"
# In place of `prefork certify`: keeps what it is given, and refuses the block that the file `wrong` names, if there is one, or
# says what the file `holds` has, in JSON.
PROGRAM = """#!/bin/sh
here=$(dirname "$0")
echo "$@" >"$here/arguments"
cat "$5" >"$here/configurations"
for argument; do
    [ "$before" = --to ] && cat "$argument" >>"$here/configurations"
    before=$argument
done
cat >"$here/given"
wrong=$(sed -n 's/prefork: certify \\([0-9]*\\) .*/\\1/p' "$here/wrong" 2>/dev/null)
if [ ! -f "$here/wrong" ] || [ "${wrong:-0}" -gt "$(grep -c '^word ' "$here/given")" ]; then
    cat "$here/holds"
    exit 0
fi
sed 's/prefork: \\(.*\\)/{"outcome":"fault","code":"\\1"}/' "$here/wrong"
cat "$here/wrong" >&2
exit 5
"""


def opened(address: str, workers: int | None, word: int = 0, call: int = 0) -> dict[str, Any]:
    least = None if workers is None else {"workers": workers, "word": word, "after_call": call}
    return {"address": address, "least_ready": least}


def short(word: int, missing: int, healed: int | None) -> dict[str, Any]:
    return {"word": word, "missing": missing, "healed": healed}


class CertifyingTest(unittest.TestCase):
    def setUp(self) -> None:
        room = tempfile.TemporaryDirectory()
        self.addCleanup(room.cleanup)
        self.room = pathlib.Path(room.name)
        self.place, self.program = self.room / "records", self.room / "prefork"
        self.program.write_text(PROGRAM)
        self.program.chmod(0o755)
        self.hold([], [])

    def keep(self, master: str, **files: str) -> None:
        folder = self.place / master
        folder.mkdir(parents=True)
        for name, text in files.items():
            (folder / name.replace("_", ".")).write_text(text)

    def hold(self, open_ones: list[dict[str, Any]], short_ones: list[dict[str, Any]]) -> None:
        """What the program says of the whole life."""
        life = {"words": 3, "open": open_ones, "short": short_ones}
        (self.room / "holds").write_text(json.dumps({"accepted": 3, "patterns": [], "life": life}))

    def said(self, status: int) -> list[str]:
        lines, found = certify(self.place, str(self.program))
        self.assertEqual(found, status, lines)
        return lines

    def given(self, name: str = "given") -> str:
        return (self.room / name).read_text()

    def test_a_report_that_was_cut_off_is_left_out(self) -> None:
        for cut in range(1, len(DONE) + 1):
            shutil.rmtree(self.place, ignore_errors=True)
            self.keep("1", from_toml="a", blocks_1=START + HUP[:-cut])
            self.said(0)
            self.assertEqual(self.given(), START)

    def test_parts_are_joined_in_their_order(self) -> None:
        parts = {f"blocks_{number}": f"word TTIN {number}\n{DONE}" for number in range(2, 12)}
        self.keep("1", from_toml="a", blocks_1=START, **parts)
        line, *holds = self.said(0)[0].splitlines()
        self.assertRegex(line, r"^1, since \d{4}-\d\d-\d\dT\S+: 11 blocks are accepted, from the first on$")
        self.assertEqual(holds, ["  open throughout none", "  short none"])
        self.assertEqual(self.given(), START + "".join(parts.values()))
        self.assertIn("certify --json --bare --from ", self.given("arguments"))

    def test_a_block_that_is_not_accepted_is_named_by_its_place_in_the_records(self) -> None:
        self.keep("1", from_toml="a", blocks_1=START + REFUSED + HUP)
        (self.room / "wrong").write_text("prefork: certify 2 Y1 3\n")
        self.assertIn(": block 3, word HUP, is not accepted: Y1 3", self.said(5)[0])
        self.assertEqual(self.given(), START + HUP)

    def test_what_holds_of_the_whole_life_is_said_by_the_numbers_of_the_record(self) -> None:
        self.keep("1", from_toml="a", blocks_1=START + REFUSED + HUP + TTIN)
        self.hold([opened("0.0.0.0:80", 2, 2, 9)], [short(0, 3, 1), short(2, 1, 3)])
        lines = self.said(0)[0].splitlines()
        self.assertRegex(lines[0], r": 4 blocks are accepted, from the first on$")
        self.assertEqual(lines[1:], ["  open throughout 0.0.0.0:80 least ready 2 at block 3 after call 9",
                                     "  short start missing 3 healed block 1", "  short block 3 missing 1 healed block 4"])
        self.assertIn(" --life", self.given("arguments"))
        # A record that is not accepted has no life.
        (self.room / "wrong").write_text("prefork: certify 2 Y1 3\n")
        self.assertEqual(len(self.said(5)[0].splitlines()), 1)

    def test_a_new_master_that_had_ended_is_no_block_that_is_not_accepted(self) -> None:
        lost = "word tick 9\n1 m2 census 2.2 : master-gone\nlost cause 1 pid no-file\n"
        self.keep("1", from_toml="a", blocks_1=START + REFUSED + HUP + lost, lost_4="the new master m2 has ended\n")
        (self.room / "wrong").write_text("prefork: certify 3 Y1 1\n")
        self.hold([opened("0.0.0.0:80", 2, 2, 9)], [])
        first, *holds = self.said(0)[0].splitlines()
        self.assertRegex(first, r": 3 blocks are accepted, from the first on; before block 4, word tick 9, the new "
                         r"master had ended\. The service saw that, and started the next master$")
        # (what holds of the blocks before it is said too)
        self.assertEqual((holds, self.given()), (["  open throughout 0.0.0.0:80 least ready 2 at block 3 after call 9", "  short none"],
                                                 START + HUP))
        # Another block is not excused by it, and a mark excuses nothing that is accepted.
        (self.room / "wrong").write_text("prefork: certify 2 Y1 1\n")
        self.assertIn(": block 3, word HUP, is not accepted: Y1 1", self.said(5)[0])
        (self.room / "wrong").unlink()
        self.assertIn(": 4 blocks are accepted", self.said(0)[0])

    def test_masters_that_died_are_one_life_with_what_came_after(self) -> None:
        self.hold([opened("0.0.0.0:80", 1), opened("/s", None)], [short(0, 2, 1)])
        self.keep("1", from_toml="a", blocks_1=START + HUP, died_2="USR2 attended\n")
        self.keep("2", from_toml="a", blocks_1=START, died_1="tick 9\n")
        self.keep("3", from_toml="a", blocks_1=START, died_0="tick 0\n")
        self.keep("4", from_toml="a", blocks_1=START)
        lines = self.said(0)
        self.assertEqual([line.splitlines()[0].partition("first on")[2] for line in lines[:4]],
                         ["; then the master died, in USR2 attended", "; then the master died, in a tick",
                          "; then the master died, at its start", ""])
        self.assertEqual(lines[4:], ["1 to 4 are one life, if the keeper kept the sockets: open throughout 0.0.0.0:80, /s; it ends "
                                     "without missing workers"])

    def test_a_life_of_several_masters_ends_with_a_stop_and_has_no_more_addresses_than_each_part(self) -> None:
        self.hold([], [short(1, 1, None)])
        self.keep("1", from_toml="a", blocks_1=START)
        self.keep("2", from_toml="a", blocks_1=START, died_1="\n")
        self.keep("3", from_toml="a", blocks_1=START)
        self.keep("4", from_toml="a", blocks_1=START)
        lines = self.said(0)
        self.assertIn("; then the master died, between two words\n", lines[1])
        self.assertEqual([line for line in lines if "one life" in line],
                         ["2 to 3 are one life, if the keeper kept the sockets: open throughout none; it ends with missing workers"])
        self.assertIn("2 to 3", lines[3])

    def test_a_life_with_a_part_that_is_not_accepted_is_not_told(self) -> None:
        (self.room / "wrong").write_text("prefork: certify 1 Y1 3\n")
        self.keep("1", from_toml="a", blocks_1=START, died_1="HUP\n")
        self.keep("2", from_toml="a", blocks_1=START)
        self.assertEqual(len(self.said(5)), 2)

    def test_each_word_goes_over_to_its_own_configuration(self) -> None:
        files = {"to_2_toml": "b", "to_6_toml": "c", "to_8_toml": "d"}
        words = START + HUP + TTIN + HUP + REFUSED + USR2 + NOTHING + ATTENDED + HUP + TTIN
        self.keep("1", from_toml="a", blocks_1=words, **files)
        self.assertIn(": 10 blocks are accepted, from the first on", self.said(0)[0])
        # The refused word takes none, nor does one that found nothing to do, and the last one stays for later words.
        self.assertEqual((self.given(), self.given("configurations")), (words.replace(REFUSED, ""), "abbcd"))

    def test_a_configuration_that_was_never_read_is_that_of_the_start(self) -> None:
        self.keep("1", from_toml="a", blocks_1=START + HUP)
        self.said(0)
        self.assertEqual(self.given("configurations"), "aa")

    def test_a_beginning_that_is_gone(self) -> None:
        self.keep("1", from_toml="a", blocks_2=HUP)
        self.assertIn("its beginning is no longer there; 1 blocks are not compared", self.said(1)[0])
        self.keep("2", from_toml="a", blocks_1=START)
        self.assertEqual(len(self.said(0)), 2)

    def test_a_gap(self) -> None:
        self.keep("1", from_toml="a", blocks_1=START + HUP, blocks_2_gap=TTIN)
        self.assertIn("2 blocks are accepted, from the first on; blocks after these could not be written", self.said(0)[0])
        self.assertEqual(self.given(), START + HUP)

    def test_masters_in_their_order_and_no_records(self) -> None:
        self.assertIn("no records", self.said(1)[0])
        for master in ("10", "9"):
            self.keep(master, from_toml="a", blocks_1=START)
        self.assertEqual([line.split(",")[0] for line in self.said(0)], ["9", "10"])

    def test_a_program_that_compares_nothing(self) -> None:
        self.keep("1", from_toml="a", blocks_1=START)
        (self.room / "wrong").write_text("prefork: config C1\n")
        self.assertIn("nothing was compared: prefork: config C1", self.said(1)[0])
        for answer in ("", "next\nlife words 1\n", "[]", '{"outcome":"fault"}', '{"outcome":"fault","code":"certify 9 Y1"}'):
            self.program.write_text(f"#!/bin/sh\ncat >/dev/null\nprintf '%s' '{answer}'\nexit 3\n")
            self.assertIn("nothing was compared: status 3, without an answer", self.said(1)[0])

    def test_a_part_that_is_removed_while_it_is_read(self) -> None:
        self.keep("1", from_toml="a", blocks_1=START, blocks_2=HUP)
        with removing(self.place / "1" / "blocks.1"):
            self.assertIn("its beginning is no longer there; 1 blocks are not compared", self.said(1)[0])

    def test_a_master_that_is_removed_while_it_is_read(self) -> None:
        for master in ("1", "2"):
            self.keep(master, from_toml="a", blocks_1=START)
        with removing(self.place / "1"):
            self.assertEqual([line.split(",")[0] for line in self.said(0)], ["2"])

    def test_a_master_that_is_removed_while_it_is_compared(self) -> None:
        self.keep("1", from_toml="a", blocks_1=START + HUP)
        lives = certifying.lives_in(self.place)
        shutil.rmtree(self.place / "1")
        with mock.patch.object(certifying, "lives_in", lambda place: lives):
            self.assertIn(": 2 blocks are accepted", self.said(0)[0])
        self.assertEqual(self.given("configurations"), "aa")


class HoldsTest(unittest.TestCase):
    def test_the_example_of_the_formats_is_told_by_its_lines(self) -> None:
        formats = SERVICE.parent / "docs" / "formats"
        life = next(line for line in (formats / "json.md").read_text().splitlines() if line.startswith('{"words":'))
        told = (formats / "lives.md").read_text().partition("```\nlife words 4\n")[2].partition("```")[0]
        self.assertEqual(holds_of(json.loads(life), [1, 2, 3, 4]).lines(), told.replace(" word ", " block ").splitlines())


def removing(path: pathlib.Path) -> Any:
    """Removes a file or a folder once it was listed, as the service does with what is old."""
    def listed(folder: pathlib.Path) -> list[pathlib.Path]:
        found = files_of(folder)
        if path in (folder, *found):
            shutil.rmtree(path) if path.is_dir() else path.unlink()
        return found

    files_of = certifying.files_of
    return mock.patch.object(certifying, "files_of", listed)


if __name__ == "__main__":
    unittest.main()

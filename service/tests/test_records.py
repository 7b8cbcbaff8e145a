"""Records: what is written of a master's blocks, in which parts, and what is left where too much was written."""
import os
import pathlib
import tempfile
import types
import unittest
from typing import Any
from unittest import mock

from prefork_service.certifying import blocks_of, life_of
from prefork_service.chronicle import Chronicle
from prefork_service.records import Records, files_of, is_quiet, masters_in

DONE = "done cause none pid no-file\n"
START = f"word tick 0\n1 m1 fork 1.1 0 : forked\n2 m1 await-ready 1.1 0 : ready\n3 m1 census 1.1 : counted 0\n{DONE}"
HUP = f"word HUP\n1 m1 fork 1.2 0 : forked\n{DONE}"


def tick(moment: int, body: str = f"1 m1 census 1.1 : counted 0\n{DONE}") -> str:
    return f"word tick {moment}\n{body}"


def beat(number: int, moment: int) -> str:
    return f"word beat {number} {moment}\nnothing\n"


SHORT = "1 m1 census 1.1 : counted none\n2 m1 fork 1.1 0 : again\ndegraded target 1 cause 2 pid no-file\n"


class RecordsTest(unittest.TestCase):
    def setUp(self) -> None:
        room = tempfile.TemporaryDirectory()
        self.addCleanup(room.cleanup)
        self.room = pathlib.Path(room.name)
        self.begin()

    def begin(self, most: int = 32 << 20) -> None:
        self.records = Records(self.room / "records", self.room / "blocks", most)
        self.records.begin(b"workers = 1\n")

    def written(self) -> str:
        return (self.room / "blocks").read_text()

    def take(self, *blocks: str) -> None:
        for block in blocks:
            self.records.add(block)

    def test_quiet_ticks_and_beats_are_not_written(self) -> None:
        self.take(START, *(text for moment in range(9) for text in (beat(0, moment), tick(moment))), HUP)
        self.assertEqual(self.written(), START + beat(0, 8) + HUP)

    def test_the_last_beats_are_written_before_the_block_that_may_rest_on_them(self) -> None:
        killed = tick(9, f"1 m1 kill 1.1 0 : ok\n{DONE}")
        self.take(START, beat(0, 1), beat(1, 1), tick(1), beat(1, 5), tick(5), killed, HUP)
        self.assertEqual(self.written(), START + beat(0, 1) + beat(1, 5) + killed + HUP)

    def test_the_start_is_written_though_it_is_quiet(self) -> None:
        self.take(tick(0), tick(1))
        self.assertEqual(self.written(), tick(0))

    def test_which_ticks_are_quiet(self) -> None:
        self.assertTrue(is_quiet(tick(5, "nothing\n")))
        self.assertTrue(is_quiet(tick(5, "1 m1 census 1.1 : counted 0-2\ndone cause none pid no-file\n")))
        self.assertFalse(is_quiet(tick(5, "1 m1 census 1.1 : counted 0-2\ndegraded target 1 cause 1 pid no-file\n")))
        self.assertFalse(is_quiet(tick(5, "1 m1 fork 1.1 0 : forked\ndone cause none pid no-file\n")))
        self.assertFalse(is_quiet(tick(5, "refused W5\n")))

    def test_ticks_that_end_alike_are_written_twice(self) -> None:
        self.take(START, *(tick(moment, SHORT) for moment in range(1, 9)))
        self.assertEqual(self.written(), START + tick(1, SHORT) + tick(2, SHORT))
        self.take(HUP, tick(10, SHORT))
        self.assertTrue(self.written().endswith(HUP + tick(10, SHORT)))

    def test_the_configurations_are_there_by_the_blocks_that_read_them(self) -> None:
        self.records.proposed = b"workers = 2\n"
        self.take(START, HUP, HUP)
        self.records.proposed = b"workers = 3\n"
        self.take(beat(0, 3), HUP)
        found = {file.name: file.read_text() for file in self.records.folder().glob("*.toml")}
        wanted = {"from.toml": "workers = 1\n", "to.2.toml": "workers = 2\n", "to.5.toml": "workers = 3\n"}
        self.assertEqual(found, wanted)

    def test_a_death_is_marked_behind_the_block_that_was_written_last(self) -> None:
        self.records.mark_death("tick 0")
        self.begin()
        self.take(START, beat(0, 1), tick(1), HUP)
        self.records.mark_death("USR2 attended")
        found = {file.name: file.read_text() for file in files_of(self.records.folder()) if file.name.startswith("died.")}
        self.assertEqual(found, {"died.3": "USR2 attended\n"})
        first = life_of(self.room / "records" / "1")
        self.assertEqual((first.died, life_of(self.records.folder()).died), ((0, "tick 0"), (3, "USR2 attended")))

    def test_a_death_is_marked_once_the_next_master_follows(self) -> None:
        folder: Any = types.SimpleNamespace(path=self.room, blocks=self.room / "blocks", reasons=self.room / "reasons")
        chronicle = Chronicle(folder, self.room / "of-service")
        records = self.room / "of-service" / "records"
        for word in ("HUP", None, ""):
            chronicle.begin_master(b"workers = 1\n", 1)
            chronicle.records.add(START)
            if word is not None:
                chronicle.end_master(word)
                self.assertIsNone(life_of(chronicle.records.folder()).died)
        # A service that is told to stop meanwhile has no next master.
        chronicle.end()
        self.assertEqual([life_of(place).died for place in masters_in(records)], [(1, "HUP"), None, None])

    def test_parts_are_bounded_and_the_oldest_go_first(self) -> None:
        self.begin(8000)
        first = self.records.folder()
        for _ in range(2):
            self.take(START, *[HUP] * 50)
            self.records.begin(b"workers = 1\n")
        self.assertTrue(first.exists())
        for _ in range(150):
            self.take(HUP)
            size = sum(file.stat().st_size for folder in masters_in(self.room / "records") for file in files_of(folder))
            self.assertLessEqual(size, 8000)
        self.assertFalse(first.exists())
        parts = [file for file in files_of(self.records.folder()) if file.name.startswith("blocks.")]
        self.assertTrue(all(file.stat().st_size <= 1000 for file in parts))
        self.assertGreater(len(parts), 5)
        self.assertEqual(os.path.realpath(self.room / "blocks"), str(parts[-1]))

    def test_the_parts_joined_are_what_was_printed(self) -> None:
        self.begin(16000)
        self.take(START, *[HUP] * 100)
        parts = [file.read_text() for file in files_of(self.records.folder()) if file.name.startswith("blocks.")]
        self.assertGreater(len(parts), 1)
        self.assertEqual("".join(parts), START + HUP * 100)
        self.assertTrue(all(part.startswith("word ") for part in parts))

    def test_masters_have_folders_of_their_own_and_not_too_many(self) -> None:
        for _ in range(100):
            self.records.begin(b"workers = 1\n")
        self.assertEqual(len(masters_in(self.room / "records")), 64)
        later = Records(self.room / "records", self.room / "blocks", 32 << 20)
        later.begin(b"workers = 1\n")
        self.assertEqual(later.folder().name, "102")

    def test_files_of_others_are_passed_over(self) -> None:
        """A copy beside the parts, and a file that has the number of a master."""
        self.take(START)
        (self.room / "records" / "1" / "blocks.bak").write_text("")
        (self.room / "records" / "1" / "blocks.1.bak").write_text("")
        (self.room / "records" / "7").write_text("")
        (self.room / "records" / "notes").mkdir()
        self.records.begin_part()
        self.take(HUP)
        self.begin()
        self.take(START)
        self.assertEqual(self.written(), START)
        self.assertEqual(sorted(folder.name for folder in masters_in(self.room / "records")), ["1", "2"])
        self.assertTrue((self.room / "records" / "1" / "blocks.bak").exists())

    def test_what_cannot_be_written_waits_and_is_said_once(self) -> None:
        with mock.patch("prefork_service.writing.say") as said:
            self.take(START)
            with mock.patch("os.write", side_effect=OSError(28, "No space left on device")):
                self.take(HUP, HUP)
                self.records.tend()
            self.assertEqual(self.written(), START)
            self.records.tend()
            self.assertEqual(self.written(), START + HUP + HUP)
        told = [call.args[0] for call in said.call_args_list]
        wanted = "the record of blocks can't be written, and is tried again: No space left on device"
        self.assertEqual(told, [wanted, "the record of blocks is written again"])

    def test_nothing_of_a_block_is_written_where_there_is_room_for_a_part_of_it(self) -> None:
        write, count = os.write, 0

        def some(file: int, text: bytes) -> int:
            nonlocal count
            count += 1
            if count == 2:
                raise OSError(28, "No space left on device")
            return write(file, text[:10])

        self.take(START)
        with mock.patch("prefork_service.writing.say"), mock.patch("os.write", some):
            self.records.writer.waiting.append((self.records.current(), HUP.encode()))
            self.records.tend()
        self.assertEqual(self.written(), START)
        self.records.tend()
        self.assertEqual(self.written(), START + HUP)

    def test_blocks_that_were_lost_leave_a_gap(self) -> None:
        self.take(START)
        with mock.patch("prefork_service.writing.say"), mock.patch("os.write", side_effect=OSError(28, "full")):
            self.take(*["word HUP\n" + "x" * 500_000 + "\ndone\n"] * 3)
        self.take(HUP)
        names = [file.name for file in files_of(self.records.folder())]
        self.assertEqual(names[-1], f"blocks.{self.records.part}.gap")
        self.assertTrue((self.records.folder() / names[-1]).read_text().endswith(HUP))

    def test_blocks_of_a_text(self) -> None:
        self.assertEqual(blocks_of(START + beat(0, 1) + HUP + "word HUP\n1 m1 fo"), [START, beat(0, 1), HUP])


if __name__ == "__main__":
    unittest.main()

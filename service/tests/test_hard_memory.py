"""Workers that take more memory than they may."""
import os
import pathlib
import subprocess
import sys
import tempfile
import unittest
from unittest import mock

from kit import built, clock_ahead, until
from prefork_service import hard_memory
from prefork_service.hard_memory import REASONS_OF_LIMITS, Guard, limit_of, passed, resident_of
from prefork_service.measures import memory_of
from prefork_service.options import arguments, told_of
from prefork_service.configuration import LAST
from prefork_service.recipes import Told, setup_of, told_in
from prefork_service.sizes import bytes_of, shown

MEGABYTE = 1 << 20
# A process that takes some memory; and one whose children have it in common with it.
TAKES = "import os, sys, time; taken = b'x' * ({} << 20); print(flush=True); time.sleep(1000)"
SHARES = "import os, sys, time; taken = b'x' * ({} << 20)\nfor _ in range(3): os.fork() or time.sleep(1000)\nprint(flush=True); time.sleep(1000)"


class HardMemoryTest(unittest.TestCase):
    def setUp(self) -> None:
        room = tempfile.TemporaryDirectory()
        self.addCleanup(room.cleanup)
        self.folder = pathlib.Path(room.name)
        (self.folder / "workers").mkdir()
        (self.folder / "reasons").touch()
        self.guard = Guard(self.folder, os.getpid())

    def worker(self, name: str, code: str, megabytes: int) -> subprocess.Popen:
        """A worker that has taken its memory."""
        process = subprocess.Popen([sys.executable, "-c", code.format(megabytes)], stdout=subprocess.PIPE, start_new_session=True)
        self.addCleanup(process.wait)
        self.addCleanup(lambda: process.poll() is None and os.killpg(process.pid, 9))
        assert process.stdout
        self.addCleanup(process.stdout.close)
        process.stdout.readline()
        (self.folder / "workers" / name).write_text(f"{process.pid}\n")
        return process

    def look(self, limits: list[list[int]], generation: str = "1.1", following: list[list[int]] | None = None) -> list[str]:
        """Whom it kills at its next look."""
        self.guard.next = 0.0
        with mock.patch.object(hard_memory, "say") as said:
            found = self.guard.tend({"generation": generation, "limits": limits, "next": following or []})
            self.assertEqual(said.call_count, len(found))
        return found

    def test_the_one_that_has_passed_its_limit_is_killed(self) -> None:
        small, large, other = (self.worker(name, TAKES, size) for name, size in (("1.1.0", 1), ("1.1.1", 80), ("1.1.2", 80)))
        limits = [[1, 60 * MEGABYTE], [LAST, 0]]
        self.assertEqual(self.look(limits), ["1.1.1"])
        self.assertEqual((large.wait(60), small.poll(), other.poll()), (-9, None, None))
        reason = (self.folder / "reasons").read_text()
        self.assertRegex(reason, r"\A1\.1\.1 has passed hard_memory: it has taken \d+(\.\d)?M, and 60M is allowed\. It is killed\n\Z")
        self.assertEqual(passed({"1.1.1": reason.partition(" ")[2], "1.1.0": "it has ended"}), {"hard_memory": 1, "request_timeout": 0})
        self.assertEqual(self.look(limits), [])
        self.assertEqual(self.look([[LAST, 0]]), [])

    def test_what_processes_have_in_common_counts_once(self) -> None:
        parent = self.worker("1.1.0", SHARES, 60)
        self.assertTrue(until(lambda: resident_of(parent.pid) > 200 * MEGABYTE))
        self.assertLess(memory_of(parent.pid), 130 * MEGABYTE)
        self.assertEqual(self.look([[LAST, 130 * MEGABYTE]]), [])
        self.assertIsNone(parent.poll())
        self.assertEqual(self.look([[LAST, 50 * MEGABYTE]]), ["1.1.0"])
        os.killpg(parent.pid, 9)

    def test_memory_is_measured_only_of_those_that_may_have_passed(self) -> None:
        self.worker("1.1.0", TAKES, 1)
        with mock.patch.object(hard_memory, "memory_of") as measured:
            self.look([[LAST, 500 * MEGABYTE]])
            measured.assert_not_called()
            measured.return_value = 7
            self.assertEqual(self.look([[LAST, MEGABYTE]]), [])
            self.assertEqual(measured.call_count, 1)

    def test_it_takes_no_more_of_a_processor_than_statistics(self) -> None:
        self.guard.next = 0.0
        with mock.patch.object(hard_memory, "started_workers", return_value={}) as looked, mock.patch.object(hard_memory, "time") as clock:
            clock.monotonic.return_value = 100.0
            clock.process_time.side_effect = [1.0, 1.02]
            self.guard.tend({"generation": "1.1", "limits": [[LAST, MEGABYTE]], "next": []})
        self.assertAlmostEqual(self.guard.next, 120.0)
        with mock.patch.object(hard_memory, "started_workers") as looked, mock.patch.object(hard_memory, "time", clock_ahead(-1000)):
            self.guard.next = 0.0 + clock_ahead(-990).monotonic()
            self.guard.tend({"generation": "1.1", "limits": [[LAST, MEGABYTE]], "next": []})
            looked.assert_not_called()

    def test_a_process_of_others_is_not_killed(self) -> None:
        stranger = self.worker("1.1.0", TAKES, 80)
        self.assertFalse(hard_memory.killed(stranger.pid, stranger.pid))
        self.assertFalse(hard_memory.killed(1 << 22, os.getpid()))
        self.assertIsNone(stranger.poll())
        (self.folder / "reasons").unlink()
        self.assertEqual(self.look([[LAST, 60 * MEGABYTE]]), ["1.1.0"])

    def test_one_that_takes_a_while_to_end_is_killed_once(self) -> None:
        workers = [self.worker(f"1.1.{number}", TAKES, 80) for number in (0, 1)]
        killed: list[int] = []
        self.guard.kill = lambda process, _: not killed.append(process)  # type: ignore[func-returns-value]
        limits = [[LAST, 60 * MEGABYTE]]
        self.assertEqual(sorted(self.look(limits)), ["1.1.0", "1.1.1"])
        self.assertEqual(self.look(limits), [])
        self.assertEqual(sorted(killed), sorted(worker.pid for worker in workers))
        workers[0].kill()
        workers[0].wait()
        other = self.worker("1.1.0", TAKES, 80)
        self.assertEqual((self.look(limits), killed[2:]), (["1.1.0"], [other.pid]))
        self.assertEqual(len(self.guard.ending), 2)

    def test_a_worker_has_the_limit_that_it_was_started_with(self) -> None:
        old, new = (self.worker(name, TAKES, 80) for name in ("1.1.0", "1.2.1"))
        none, limits = [[LAST, 0]], [[LAST, 60 * MEGABYTE]]
        self.assertEqual(self.look(none, "1.1"), [])
        # The next generation starts, and is the one that runs then; the other one finishes.
        self.assertEqual(self.look(none, "1.1", none), [])
        self.assertEqual(self.look(limits, "1.2"), ["1.2.1"])
        self.assertEqual((new.wait(60), old.poll()), (-9, None))
        (self.folder / "workers" / "1.2.1").unlink()
        # One that starts has the limit of the next configuration already.
        other = self.worker("1.3.0", TAKES, 80)
        self.assertEqual(self.look(none, "1.2", limits), ["1.3.0"])
        self.assertEqual((other.wait(60), old.poll()), (-9, None))
        (self.folder / "workers" / "1.3.0").unlink()
        # It was taken back, and what is left of it finishes under its own.
        left = self.worker("1.3.1", TAKES, 80)
        self.assertEqual(self.look(none, "1.2"), ["1.3.1"])
        self.assertEqual((left.wait(60), old.poll()), (-9, None))

    def test_a_guard_that_begins_late_takes_no_worker_for_one_that_runs(self) -> None:
        old = self.worker("1.1.0", TAKES, 80)
        limits = [[LAST, 60 * MEGABYTE]]
        self.assertEqual(self.look(limits, "1.2"), [])
        self.assertIsNone(old.poll())
        # (no generation runs yet: it is the first one)
        self.guard = Guard(self.folder, os.getpid())
        self.assertEqual(self.look(limits, ""), ["1.1.0"])

    def test_limits_by_number(self) -> None:
        limits = [[1, 5], [3, 0], [LAST, 7]]
        self.assertEqual([limit_of(limits, number) for number in (0, 1, 2, 3, 4, 1024)], [5, 5, 0, 0, 7, 7])
        self.assertEqual((limit_of([], 0), set(REASONS_OF_LIMITS)), (0, {"hard_memory", "request_timeout"}))


class SettingsTest(unittest.TestCase):
    """Where a limit comes from."""

    @classmethod
    def setUpClass(cls) -> None:
        built()

    def test_the_key_is_of_all_workers_or_of_a_group(self) -> None:
        groups = '[[groups]]\nlisteners = ["127.0.0.1:1"]\nworkers = 2\n[[groups]]\nlisteners = ["127.0.0.1:2"]\n'
        own = '[service]\nprogram = ["p"]\nhard_memory = "512M"\n[service.groups.x]\nlistener = "127.0.0.1:2"\nhard_memory = 2000000\n'
        found = setup_of(f"{groups}{own}".encode(), Told())
        self.assertEqual([(one.last, one.hard_memory) for one in found.recipes], [(1, 512 << 20), (LAST, 2000000)])
        found = setup_of(f"{groups}{own}".encode(), Told(hard_memory=7 << 20))
        self.assertEqual([one.hard_memory for one in found.recipes], [7 << 20] * len(found.recipes))
        self.assertEqual(found.overridden, ["hard_memory"])
        found = setup_of(b'listeners = ["127.0.0.1:1"]\ncommand = ["c"]\n[service]\nhard_memory = "1G"\n', Told())
        self.assertEqual([one.hard_memory for one in found.recipes], [1 << 30])

    def test_the_option(self) -> None:
        command = ["--hard-memory", "1.5G", "--listen", "127.0.0.1:1", "--", "true"]
        self.assertEqual(told_of(arguments(command)).hard_memory, 3 << 29)
        self.assertEqual(told_in(told_of(arguments(command)).as_json()).recipe(("x",), None, "").hard_memory, 3 << 29)


class SizesTest(unittest.TestCase):
    def test_sizes(self) -> None:
        for value, size in (("512M", 512 << 20), ("1.5G", 3 << 29), (1 << 20, 1 << 20), ("1048576", 1 << 20), ("2048K", 2 << 20), ("1T", 1 << 40)):
            self.assertEqual(bytes_of(value), size, value)
        for wrong in ("", "M", "1", "512", "-5M", "5 M", "5m", "5MB", "1e9", "5.M", "0M", "9999T", True, 1.5, None, [], 1 << 60):
            self.assertIsNone(bytes_of(wrong), wrong)
        self.assertEqual([shown(size) for size in (512 << 20, 3 << 29, 1000, (512 << 20) + 60000)], ["512M", "1.5G", "1000", "512.1M"])


if __name__ == "__main__":
    unittest.main()

"""When workers are tried again that fail to start."""
import pathlib
import random
import subprocess
import tempfile
import unittest
from collections.abc import Callable

from kit import OUT, built
from prefork_service.state import News, whole_of
from prefork_service.trying import MOST_SECONDS, Trying, seconds_after

RETRIES, REASON = 3, "./app has ended by itself with status 3"


class Master:
    """What a tick does that finds workers missing, with a prefork-launch that does as it is told."""

    def __init__(self, place: pathlib.Path, wanted: int):
        self.place, self.wanted, self.starts = place, wanted, list[tuple[int, float]]()
        self.running: set[int] = set()
        # Workers that can start by now.
        self.sound: set[int] = set()

    def start(self, number: int, now: float) -> bool:
        once = self.place / f"{number}.once"
        if (self.place / str(number)).exists():
            if not once.exists():
                return False
            once.unlink()
        self.starts.append((number, now))
        return number in self.sound

    def tick(self, now: float) -> str:
        missing = [number for number in range(self.wanted) if number not in self.running]
        lines, tried = [], [(number, self.start(number, now)) for number in missing]
        for round in range(RETRIES + 1):
            for number, is_ready in tried:
                lines += [f"fork 1.1 {number} : forked", f"await-ready 1.1 {number} : {'ready' if is_ready else 'gone'}"]
                self.running |= {number} if is_ready else set()
            lacking = [number for number in range(self.wanted) if number not in self.running]
            if not lacking or round == RETRIES:
                break
            tried = [(lacking[0], self.start(lacking[0], now))]
        report = f"degraded target {len(lacking)} cause 2" if lacking else "done cause none"
        return "".join(f"{at} m1 {line}\n" for at, line in enumerate(lines, 1)) + f"{report} pid no-file\n"


class TryingTest(unittest.TestCase):
    def setUp(self) -> None:
        room = tempfile.TemporaryDirectory()
        self.addCleanup(room.cleanup)
        self.place = pathlib.Path(room.name) / "waiting"
        seed = random.randrange(1 << 30)
        self.says = f"seed {seed}"
        self.trying, self.master = Trying(self.place, random.Random(seed)), Master(self.place, 4)
        self.ticks: list[float] = []
        self.told = 0.0
        # Why each worker ends that does not start.
        self.reason_of: Callable[[int], str] = lambda number: REASON

    def look(self, now: float, is_lost: bool = False) -> None:
        """What the loop of the service does each half second."""
        missing = self.master.wanted - len(self.master.running)
        if now - self.told < 1 or not self.trying.wants_tick(missing, is_lost, now - self.told if self.master.running else 0.0, 60, now):
            return
        self.told = now
        self.ticks.append(now)
        self.trying.begin_tick(now)
        block = f"word tick {int(now)}\n{self.master.tick(now)}"
        self.trying.note(block, {f"1.1.{number}": self.reason_of(number) for number in range(self.master.wanted)}, now)
        self.trying.forget_others(self.master.wanted, sorted(self.master.running))

    def test_the_pauses(self) -> None:
        self.assertEqual([seconds_after(tries, 0.0) for tries in range(1, 9)], [1, 2, 4, 8, 16, 32, 60, 60])
        self.assertEqual(seconds_after(2, 1.0), 2.5)
        self.assertEqual(seconds_after(1000, 1.0), MOST_SECONDS)

    def test_a_crash_loop_of_four_workers_for_ten_minutes(self) -> None:
        news, lines, now = News(), [], 1.0
        while now < 601:
            self.look(now)
            if told := news.take(whole_of(None, True, 4, len(self.master.running), self.trying.why()), now):
                lines.append(told[0].line)
            now += 0.5
        self.assertLessEqual(len(self.master.starts), 60, self.says)
        self.assertGreater(len(self.master.starts), 15, self.says)
        self.assertLessEqual(len(lines), 20)
        self.assertRegex(lines[0], r"^short: wanted 4, runs 0: workers 0, 1, 2 and 1 more have failed \d+ times, last: .*status 3$")
        self.assertEqual(self.trying.total, len(self.master.starts), self.says)
        # Each is tried in turn.
        self.assertEqual({number for number, moment in self.master.starts if moment > 10}, {0, 1, 2, 3})
        gaps = [after - before for before, after in zip(self.ticks, self.ticks[1:])]
        self.assertLessEqual(max(gaps), MOST_SECONDS + 0.5, self.says)

    def test_a_crash_loop_for_reasons_of_which_no_two_are_the_same(self) -> None:
        """Each worker then waits for itself; all together they have few starts all the same, however many they are."""
        chance = random.Random(self.says)
        self.reason_of = lambda number: "no database " + "".join(chance.choice("abcdef") for _ in range(9))
        for wanted in (4, 40):
            self.trying.unmark()
            self.trying, self.master, self.told, self.ticks = Trying(self.place, chance), Master(self.place, wanted), 0.0, []
            now = 1.0
            while now < 601:
                self.look(now)
                now += 0.5
            again = len(self.master.starts) - wanted
            self.assertLessEqual(again, 56, f"{self.says}, {wanted} workers")
            self.assertGreater(again, 40, f"{self.says}, {wanted} workers")
            # No tick is told for nothing.
            self.assertLessEqual(len(self.ticks), 60, self.says)
            self.assertEqual(self.trying.total, len(self.master.starts), self.says)
            # Each has its turn.
            late = {number for number, moment in self.master.starts if moment > 20}
            self.assertGreaterEqual(len(late), min(wanted, 30), self.says)
            # Once they can start they do, within a minute.
            self.master.sound, began = set(range(wanted)), now
            while len(self.master.running) < wanted and now < began + 200:
                self.look(now)
                now += 0.5
            self.assertLess(now, began + MOST_SECONDS + 20, f"{self.says}, {wanted} workers")

    def test_when_the_next_try_is(self) -> None:
        self.reason_of = lambda number: "abcd"[number]
        now = 1.0
        while now < 100:
            self.look(now)
            now += 0.5
        told = [one["due"] - now for one in self.trying.as_json(now)]
        before = len(self.master.starts)
        while len(self.master.starts) == before:
            self.look(now)
            now += 0.5
        self.assertAlmostEqual(100 + min(told), now, delta=1.0, msg=self.says)

    def test_once_one_is_ready_all_are_tried(self) -> None:
        for now in (1.0, 3.0, 6.0):
            self.look(now)
        self.master.sound = {0, 1, 2, 3}
        self.look(12.0)
        self.look(13.0)
        self.assertEqual(self.master.running, {0, 1, 2, 3}, self.says)
        self.assertEqual(self.trying.failing, {})
        self.trying.begin_tick(22.0)
        self.assertFalse(self.place.exists())

    def test_a_worker_that_is_lost_is_replaced_at_once_and_the_others_wait(self) -> None:
        self.master.running, self.master.sound = {1, 2, 3}, {1, 2, 3}
        for now in (1.0, 3.0, 6.0, 11.0, 22.0):
            self.look(now)
        before = len(self.master.starts)
        self.look(23.5)
        self.assertEqual(len(self.master.starts), before)
        self.master.running.discard(2)
        self.look(24.0, is_lost=True)
        self.assertEqual(self.master.starts[before:], [(2, 24.0)], self.says)
        self.assertEqual(self.master.running, {1, 2, 3})
        self.assertEqual(sorted(self.trying.failing), [0])

    def test_beats_are_asked_for_while_one_waits(self) -> None:
        self.master.running, self.master.sound = {1, 2, 3}, {1, 2, 3}
        now = 1.0
        while now < 300:
            self.look(now)
            now += 0.5
        self.assertLessEqual(max(after - before for before, after in zip(self.ticks, self.ticks[1:])), 15.5)
        self.assertLess(len(self.master.starts), 25)

    def test_a_word_tries_at_once(self) -> None:
        for now in (1.0, 3.0, 6.0, 11.0):
            self.look(now)
        before = len(self.master.starts)
        self.trying.begin_word(11.5)
        self.assertFalse(self.place.exists())
        self.look(12.0)
        self.assertEqual({number for number, _ in self.master.starts[before:]}, {0, 1, 2, 3})

    def test_workers_that_fail_for_other_reasons_do_not_wait_for_each_other(self) -> None:
        block = "word tick 1\n1 m1 await-ready 1.1 0 : gone\n2 m1 await-ready 1.1 1 : gone\ndegraded target 2 cause 1 pid no-file\n"
        self.trying.note(block, {"1.1.0": "no memory", "1.1.1": "in use"}, 1.0)
        self.trying.begin_tick(9.0)
        self.assertEqual(self.trying.allowed, {0: 1, 1: 1})
        self.assertEqual(self.trying.why(), "worker 0 has failed once, last: no memory; worker 1 has failed once, last: in use")

    def test_a_place_that_cannot_be_written_keeps_nobody_out(self) -> None:
        self.place.write_text("a file")
        self.trying.note("word tick 1\n1 m1 await-ready 1.1 0 : gone\nx\n", {}, 1.0)
        self.trying.begin_tick(1.5)
        self.assertEqual(self.trying.allowed, {})


class ReasonTest(unittest.TestCase):
    def test_a_worker_for_which_no_process_is_left(self) -> None:
        """A call that nobody has noted a reason for says what the system lacks."""
        with tempfile.TemporaryDirectory() as room:
            found = Trying(pathlib.Path(room) / "waiting")
            block = "word tick 1\n1 m1 fork 1.1 0 : again\n2 m1 census 1.1 : counted none\ndegraded target 1 cause 1 pid no-file\n"
            found.note(block, {}, 1.0)
            self.assertEqual(found.why(), "worker 0 has failed once, last: fork: again: no process or descriptor was left (ulimit -u, ulimit -n, TasksMax=)")


class LaunchTest(unittest.TestCase):
    """prefork-launch, which starts no worker that waits."""

    @classmethod
    def setUpClass(cls) -> None:
        built()

    def test_a_worker_that_waits_has_one_start_if_it_is_allowed(self) -> None:
        with tempfile.TemporaryDirectory() as name:
            room = pathlib.Path(name)
            for folder in ("commands", "workers", "errors", "waiting"):
                (room / folder).mkdir()
            (room / "commands" / "next").write_bytes(b"sh\0-c\0echo $PREFORK_WORKER >>started\0")
            (room / "waiting" / "0").touch()
            (room / "waiting" / "0.once").touch()
            environment = {"PATH": "/usr/bin:/bin", "PREFORK_FOLDER": name}
            for number, status in ((0, 0), (0, 1), (0, 1), (1, 0)):
                line = f"worker 1.1 {number} 7\n".encode()
                found = subprocess.run([OUT / "prefork-launch", "child"], input=line, env=environment, cwd=room, timeout=60)
                self.assertEqual(found.returncode, status, number)
            self.assertEqual((room / "started").read_text(), "1.1.0\n1.1.1\n")


if __name__ == "__main__":
    unittest.main()

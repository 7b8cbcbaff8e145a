"""What is between the first master and that in charge: new masters one after another, and the end of each process."""
import os
import pathlib
import shutil
import signal
import subprocess
import tempfile
import unittest
from typing import Any

from kit import PYTHON, until
from prefork_service.places import LAUNCH
from prefork_service.processes import children_of, is_ending, masters_of, words_of

CHAINED = pathlib.Path(__file__).resolve().parent / "programs" / "chained.py"
UPGRADES, SECONDS = 5, 60


def below(process: int) -> list[int]:
    """The processes that a process has started, and those that these have."""
    children = children_of(process)
    return [*children, *(number for child in children for number in below(child))]


class RelayTest(unittest.TestCase):
    """This process is the first master."""

    def setUp(self) -> None:
        room = tempfile.TemporaryDirectory()
        self.addCleanup(room.cleanup)
        self.room = pathlib.Path(room.name)
        # (so the words of its process are those of a master: python3 adopt --program ..)
        (self.room / "adopt").symlink_to(CHAINED)
        self.launch = pathlib.Path(shutil.copy(LAUNCH, self.room / "prefork-launch"))
        more = {"PREFORK_FOLDER": str(self.room), "PREFORK_PROGRAM": PYTHON, "LAUNCH": str(self.launch)}
        pipes: dict[str, Any] = {"stdin": subprocess.PIPE, "stdout": subprocess.PIPE, "cwd": self.room}
        self.relay: Any = subprocess.Popen([self.launch, "adopt"], env={**os.environ, **more}, text=True, **pipes)
        self.addCleanup(self.end)
        self.image = 2
        self.master = int(self.asked("process"))

    def end(self) -> None:
        self.relay.stdin.close()
        self.relay.kill()
        self.relay.wait()
        self.relay.stdout.close()

    def asked(self, call: str, image: int = 0) -> str:
        self.relay.stdin.write(f"m{image or self.image} {call}\n")
        self.relay.stdin.flush()
        return self.relay.stdout.readline().rstrip("\n")

    def chain(self) -> list[int]:
        return below(self.relay.pid)

    def begin_next(self) -> int:
        """Starts the next master; its process."""
        self.assertEqual(self.asked(f"spawn-master {self.image + 1}"), "spawned")
        return int(self.asked("process", self.image + 1))

    def deputy(self) -> int:
        return next(number for number in children_of(self.master) if words_of(number)[0] == str(self.launch))

    def wants_gone(self, *processes: int) -> None:
        self.assertTrue(until(lambda: all(map(is_ending, processes))), [words_of(one) for one in processes])

    def test_a_master_that_has_left_ends(self) -> None:
        for _ in range(UPGRADES):
            old, new = self.master, self.begin_next()
            self.assertEqual(self.asked("process"), str(old))
            self.assertEqual(len(self.chain()), 3)
            self.assertEqual(self.asked("leave"), "ok")
            self.image, self.master = self.image + 1, new
            self.assertEqual(self.asked("process"), str(new))
            self.assertEqual(self.chain(), [new])
            self.wants_gone(old)
        self.assertEqual(masters_of(self.relay.pid), [self.relay.pid, self.master])
        self.assertEqual(len(os.listdir(f"/proc/{self.relay.pid}/fd")), 7)

    def test_long_lines_are_passed_on(self) -> None:
        text = "x" * 500_000
        self.assertEqual(self.asked(f"echo {text}"), text)
        self.begin_next()
        self.assertEqual(self.asked("leave"), "ok")
        self.assertEqual(self.asked(f"echo {text}", 3), text)

    def test_workers_are_started_by_the_program_that_is_there(self) -> None:
        for _ in range(2):
            # (an update replaces the file, and the relay is that from before)
            shutil.copy(LAUNCH, self.room / "new")
            (self.room / "new").replace(self.launch)
            self.begin_next()
            self.assertEqual(self.asked("program", self.image + 1), str(self.launch))
            self.assertEqual(self.asked("leave"), "ok")
            self.image += 1
            self.assertEqual(len(self.chain()), 1)

    def test_the_master_that_is_named_leaves(self) -> None:
        new = self.begin_next()
        self.assertEqual(self.asked("leave", 3), "ok")
        self.assertEqual((self.asked("process"), self.asked("process", 3)), (str(self.master), str(new)))

    def test_a_next_master_that_is_ended(self) -> None:
        for call in ("term-master 3", ""):
            new, deputy = self.begin_next(), self.deputy()
            if call:
                self.assertEqual(self.asked(call), "ok")
            else:
                os.kill(new, signal.SIGKILL)
                self.assertEqual(self.asked("process", 3), "master-gone")
            self.wants_gone(new, deputy)
            self.assertEqual(self.asked("process"), str(self.master))

    def test_a_deputy_is_killed(self) -> None:
        new = self.begin_next()
        os.kill(self.deputy(), signal.SIGKILL)
        self.wants_gone(new)
        self.assertEqual(self.asked("process"), str(self.master))
        self.assertEqual(self.asked("process", 3), "master-gone")
        self.begin_next()
        self.assertEqual(self.asked("leave"), "ok")

    def test_the_master_in_charge_is_killed(self) -> None:
        new, deputy = self.begin_next(), self.deputy()
        os.kill(self.master, signal.SIGKILL)
        self.assertEqual(self.relay.stdout.read(), "")
        self.wants_gone(self.master, new, deputy)
        self.assertEqual(self.relay.wait(SECONDS), 128 + signal.SIGKILL)

    def test_the_relay_is_killed(self) -> None:
        new, deputy = self.begin_next(), self.deputy()
        self.relay.kill()
        self.wants_gone(self.master, new, deputy)

    def test_the_input_ends(self) -> None:
        new = self.begin_next()
        self.assertEqual(self.asked("leave"), "ok")
        self.relay.stdin.close()
        self.assertEqual(self.relay.stdout.read(), "")
        self.assertEqual(self.relay.wait(SECONDS), 0)
        self.wants_gone(self.master, new)

    def test_without_its_socket_a_later_master_has_a_relay_of_its_own(self) -> None:
        (self.room / "masters.sock").unlink()
        new = self.begin_next()
        self.assertEqual(self.asked("leave"), "ok")
        self.assertEqual(self.asked("process", 3), str(new))
        self.assertEqual(masters_of(self.relay.pid), [self.relay.pid, self.master, new])


if __name__ == "__main__":
    unittest.main()

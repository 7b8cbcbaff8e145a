"""prefork-load: how it ends."""
import os
import pathlib
import signal
import subprocess
import unittest

from kit import BIN, free_address, until

CLIENTS, TIMES = 8, 6


def state_of(process: int) -> str:
    return pathlib.Path(f"/proc/{process}/stat").read_text().rpartition(")")[2].split()[0]


class LoadTest(unittest.TestCase):
    def test_a_signal_that_comes_while_it_stands_still_ends_it(self) -> None:
        """Any of its threads may be the first to go on."""
        for _ in range(TIMES):
            command = [BIN / "prefork-load", "--clients", str(CLIENTS), "--rate", "50", free_address()]
            load = subprocess.Popen(command, stdout=subprocess.DEVNULL)
            self.addCleanup(load.wait)
            self.addCleanup(load.kill)
            self.assertTrue(until(lambda: len(os.listdir(f"/proc/{load.pid}/task")) > CLIENTS))
            load.send_signal(signal.SIGSTOP)
            self.assertTrue(until(lambda: state_of(load.pid) == "T"))
            load.send_signal(signal.SIGTERM)
            load.send_signal(signal.SIGCONT)
            # (nobody answers there)
            self.assertEqual(load.wait(60), 1)


if __name__ == "__main__":
    unittest.main()

"""Each program of the service says its version, and does nothing else."""
import subprocess
import unittest

from kit import BIN, OUT, SERVICE, built
from prefork_service import VERSION

SECONDS = 60


class VersionTest(unittest.TestCase):
    def test_each_program_says_it(self) -> None:
        built()
        programs = [*BIN.iterdir(), *(SERVICE / "libexec").iterdir(), *OUT.glob("prefork-*[!o]")]
        self.assertGreaterEqual(len(programs), 10)
        for program in programs:
            found = subprocess.run([program, "--version"], stdin=subprocess.DEVNULL, capture_output=True, text=True, timeout=SECONDS)
            self.assertEqual((found.returncode, found.stdout, found.stderr), (0, f"{program.name} {VERSION}\n", ""))


if __name__ == "__main__":
    unittest.main()

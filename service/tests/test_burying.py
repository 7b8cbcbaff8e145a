"""Orphans: who is buried, and who is left to the one that started it."""
import os
import subprocess
import sys
import unittest

from kit import BIN

# A process that is given the orphans of its child, and has a child of its own that has ended. It prints what was buried
# of two orphans, and the status of its own child.
PROGRAM = """
import os, subprocess, time
from prefork_service.burying import adopt_orphans, bury_orphans, started
from prefork_service.processes import fields_of
def has_ended(process):
    fields = fields_of(process)
    return not fields or fields[0] == "Z"
adopt_orphans()
shell = started(["sh", "-c", "sleep 0.2 & echo $!; sleep 0.2 & echo $!"], stdout=subprocess.PIPE, text=True)
orphans = sorted(int(line) for line in shell.stdout)
own = started(["sh", "-c", "exit 7"])
buried = []
while not has_ended(own.pid):
    time.sleep(0.01)
before = own.returncode
while len(buried) < 2:
    buried += bury_orphans()
    # (while one of its own comes first, the others wait)
    shell.poll(), own.poll()
    time.sleep(0.01)
print(sorted(buried) == orphans, before, own.wait(), shell.wait(), bury_orphans())
"""


# A process whose child is killed, and whose grandchild holds a program: it ends by its own, or does not.
HOLDING = """
import os, subprocess, sys
from prefork_service.burying import adopt_orphans, await_holders, holders, started
adopt_orphans()
text = "import ctypes, time; ctypes.CDLL(None).prctl(15, b'prefork-hold', 0, 0, 0); print('there', flush=True); time.sleep(%s)"
shell = started(["sh", "-c", '"$0" -c "$1" & echo $!; wait', sys.executable, text % sys.argv[1]], stdout=subprocess.PIPE, text=True)
there, number = sorted(shell.stdout.readline().strip() for _ in range(2))[::-1]
print(there, holders())
shell.kill(), shell.wait()
while holders() != [int(number)]:
    pass
left = await_holders(float(sys.argv[2]))
print(left == [int(number)] if left else left, holders() == left)
for one in left:
    os.kill(one, 9), os.waitpid(one, 0)
"""


class BuryingTest(unittest.TestCase):
    def test_those_that_hold_programs_are_awaited(self) -> None:
        environment = {**os.environ, "PYTHONPATH": str(BIN.parent)}
        for sleeps, seconds, wanted in (("1", "60", "[] True"), ("1000", "0.1", "True True")):
            command = [sys.executable, "-c", HOLDING, sleeps, seconds]
            found = subprocess.run(command, env=environment, capture_output=True, text=True, timeout=60)
            self.assertEqual((found.stdout, found.stderr), (f"there []\n{wanted}\n", ""))

    def test_orphans_are_buried_and_own_children_are_not(self) -> None:
        environment = {**os.environ, "PYTHONPATH": str(BIN.parent)}
        found = subprocess.run([sys.executable, "-c", PROGRAM], env=environment, capture_output=True, text=True, timeout=60)
        self.assertEqual((found.stdout, found.stderr), ("True None 7 0 []\n", ""))

    def test_all_that_prefork_serve_starts_is_known(self) -> None:
        """What a module starts by itself would be buried here, and its status lost."""
        # (a trial is a process of its own, and so is prefork-ctl)
        of_others = {"answering.py", "burying.py", "checkworker.py", "checkpreloader.py", "conversation.py", "trial.py"}
        files = [file for file in (BIN.parent / "prefork_service").glob("*.py") if file.name not in of_others]
        self.assertEqual([file.name for file in files if "Popen(" in file.read_text()], [])

    def test_nobody_is_there(self) -> None:
        text = "from prefork_service.burying import bury_orphans\nprint(bury_orphans())"
        environment = {**os.environ, "PYTHONPATH": str(BIN.parent)}
        found = subprocess.run([sys.executable, "-c", text], env=environment, capture_output=True, text=True, timeout=60)
        self.assertEqual((found.stdout, found.stderr), ("[]\n", ""))


if __name__ == "__main__":
    unittest.main()

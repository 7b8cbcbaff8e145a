"""wrong_adapter.py FAULT COMMAND..: is between a master and an adapter, and makes the adapter wrong.

FAULT is `early`: it says `ready` as soon as it hears `go`; or `hurries`: at `quit` it kills the adapter and says `gone`.
For tests: each scenario of ci/adapters must fail on either.
"""
import os
import select
import subprocess
import sys

FAULT, COMMAND = sys.argv[1], sys.argv[2:]


def main() -> int:
    adapter = subprocess.Popen(COMMAND, stdin=subprocess.PIPE, stdout=subprocess.PIPE, bufsize=0)
    has_said_ready = False
    while True:
        ready, _, _ = select.select([0, adapter.stdout], [], [])
        if adapter.stdout in ready:
            said = os.read(adapter.stdout.fileno(), 4096)
            if not said:
                return adapter.wait() or 1
            if FAULT == "early":
                said = said.replace(b"ready\n", b"")
            os.write(1, said)
        if 0 in ready:
            told = os.read(0, 65536)
            if FAULT == "hurries" and (not told or b"quit\n" in told):
                adapter.kill()
                adapter.wait()
                if told:
                    os.write(1, b"gone\n")
                return 0
            if not told:
                adapter.stdin.close()
                return adapter.wait()
            if FAULT == "early" and b"go\n" in told and not has_said_ready:
                has_said_ready = True
                os.write(1, b"ready\n")
            try:
                adapter.stdin.write(told)
            except BrokenPipeError:
                pass


sys.exit(main())

"""wrong.py FAULT: the test double with a fault, for the tests of prefork-checkworker.

Each fault is a point of docs/WORKERS.md that is not met.
"""
import os
import pathlib
import socket
import sys
import time

sys.dont_write_bytecode = True
sys.path[0] = str(pathlib.Path(__file__).resolve().parent.parent.parent / "double")
import worker

FAULTS = ("early", "prints", "hurries", "leaves", "blocks", "forgets", "stays", "deaf", "shuts", "talks", "lingers")
FAULT = sys.argv[1]


def page(request: worker.Request) -> tuple[int, str]:
    if FAULT == "prints":
        # What an application prints is an answer to the master.
        print("served", flush=True)
    if request.path == "/slow":
        time.sleep(1)
    return 200, "a page\n"


class Wrong(worker.Worker):
    def obey(self, line: str) -> bool:
        word, *rest = line.split()
        if FAULT == "early" and word == "go":
            # It accepts no connection: its application is still to be loaded.
            worker.say("ready")
            return True
        if FAULT == "hurries" and word == "quit":
            worker.say("gone")
            os._exit(0)
        if FAULT == "leaves" and word == "go" and os.fork() == 0:
            time.sleep(3600)
        if FAULT == "forgets" and word == "tick":
            worker.say(f"beat {rest[0]} 1")
            return True
        if FAULT == "shuts" and word == "quit":
            for door in self.server.doors.values():
                door.listener.shutdown(socket.SHUT_RDWR)
        if FAULT == "talks" and word == "usr1":
            worker.say("ok")
        goes_on = super().obey(line)
        if FAULT == "blocks" and word == "listener":
            self.server.doors[rest[0]].listener.setblocking(True)
        if FAULT == "stays" and word == "quit":
            time.sleep(3600)
        return goes_on


def linger() -> None:
    """A survivor that serves on for ever."""
    name = f"{os.environ['PREFORK_WORKER']}.{os.getpid()}"
    place = pathlib.Path(os.environ["PREFORK_FOLDER"], "survivors")
    if place.exists():
        (place / name).touch()
        time.sleep(3600)


if FAULT == "lingers":
    worker.outlive_master = linger
worker.Worker = Wrong
status = worker.work(page)
if FAULT == "deaf":
    # The end of input is not the end of this worker.
    time.sleep(3600)
sys.exit(status)

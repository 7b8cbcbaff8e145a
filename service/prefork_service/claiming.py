"""How a service takes its folder at the start: nobody else serves there, and it is the folder of a service."""
import os
import re
import socket
import sys
import threading
import time

from .folder import SURVIVOR, WORKER_OR_ENDED, Folder, files_in, remove_all, say
from .inheriting import Heritage, heritage_at
from .surviving import TOUCH_SECONDS, touch

# How long the processes of a service that was killed may take to end: longer than a worker finishes what it serves.
LEAVE_SECONDS = 35
# What an earlier version left in a folder, which made no mark.
EARLIER_FILES = re.compile(r"journal(\.\d)?|records|blocks|(accepted|config|next)\.toml|serve\.pid|(ctl|keeper)\.sock|reasons|"
                     r"workers|commands|(worker|template|preloader)\..+|\.\d+|\.blocks")
# The path of a socket has 107 bytes at most, and its name in the folder some of them.
LONGEST_PATH = 90


class ClaimedFolder(Folder):
    """The folder of a service that is about to start. Ends the process if it can't be had."""

    def __init__(self, path: str):
        super().__init__(path)
        if len(os.fsencode(self.path)) > LONGEST_PATH:
            sys.exit(f"prefork-serve: {self.path}: the path is too long for sockets: at most {LONGEST_PATH} bytes")
        self.path.mkdir(mode=0o700, parents=True, exist_ok=True)
        found = self.path.stat()
        if found.st_uid != os.geteuid() or found.st_mode & 0o077:
            sys.exit(f"prefork-serve: {self.path} must belong to you and be closed to others: chmod 700")
        if not self.is_own():
            sys.exit(f"prefork-serve: {self.path} is not empty, and is not the folder of a service: --folder takes a folder of its own")
        self.mark.touch(0o600)
        self.lock = os.open(self.path, os.O_RDONLY | os.O_DIRECTORY)
        # Whether it is taken, and what a killed service has left.
        self.is_taken, self.heritage, self.is_left = False, Heritage(), threading.Event()

    def is_own(self) -> bool:
        """Whether the folder has the mark of a service, is empty, or has what an earlier version has left, which made no
        mark."""
        names = {file.name for file in files_in(self.path)}
        is_earlier = "journal" in names and all(EARLIER_FILES.fullmatch(name) for name in names)
        return self.mark.exists() or not names or is_earlier

    def claim(self) -> None:
        """Takes the lock. If no service answers, processes of a killed service hold it."""
        deadline, is_told = time.monotonic() + LEAVE_SECONDS, False
        while not self.is_claimed():
            if self.is_served():
                owner = self.pid.read_text().strip()
                sys.exit(f"prefork-serve: {self.path} is served already, by process {owner}")
            if time.monotonic() > deadline:
                sys.exit(f"prefork-serve: processes of an earlier service in {self.path} are still running")
            if not is_told:
                say("waits for processes of an earlier service to end")
            is_told = True
            time.sleep(0.1)
        self.is_taken = True
        threading.Thread(target=self.keep_survivors, daemon=True).start()
        self.heritage = heritage_at(self.keeper)
        for left in (self.words, *([] if self.heritage.connection else [self.keeper]), *self.path.glob("preloader.*")):
            left.unlink(missing_ok=True)
        remove_all(self.workers, WORKER_OR_ENDED)
        self.write_own()

    def keep_survivors(self) -> None:
        """Tells the workers of a killed service that another one starts, which may take longer than they wait for one."""
        while survivors := [file for file in files_in(self.survivors) if SURVIVOR.fullmatch(file.name)]:
            touch(survivors)
            if self.is_left.wait(TOUCH_SECONDS):
                return

    def clear(self) -> None:
        """Removes what a start has made that has failed, or was stopped. Workers that survive a killed service, and its keeper,
        stay for the next start. What another service has in the folder that was not taken stays, too."""
        self.is_left.set()
        if not self.is_taken:
            return
        for own in (self.words, self.pid, self.reasons, *([] if self.heritage.connection else [self.keeper])):
            own.unlink(missing_ok=True)
        if not self.heritage.connection:
            self.clear_beside()

    def is_served(self) -> bool:
        with socket.socket(socket.AF_UNIX) as probe:
            try:
                probe.connect(str(self.words))
                return True
            except OSError:
                return False

"""Handles of processes (pidfds). A handle stays that of one process, also where another one has its number later. One call of
the system says which processes have ended."""
import contextlib
import os
import select
from typing import Generic, TypeVar

Owner = TypeVar("Owner")
# Each is a descriptor, and a process needs others too.
MOST_HANDLES = 256


class Handles(Generic[Owner]):
    """Handles, each with its owner: what is told that the process has ended."""

    def __init__(self, most: int = MOST_HANDLES):
        self.most, self.owners = most, dict[int, Owner]()
        self.ends: select.epoll | None = None

    def take(self, process: int, owner: Owner) -> int:
        """A handle of a process; -1 where there is no such process, or no room."""
        if len(self.owners) >= self.most:
            return -1
        handle = -1
        try:
            if not self.ends:
                self.ends = select.epoll()
            handle = os.pidfd_open(process)
            self.ends.register(handle, select.EPOLLIN)
        except OSError:
            # (an old system has no handles)
            if handle >= 0:
                os.close(handle)
            return -1
        self.owners[handle] = owner
        return handle

    def ended(self) -> list[Owner]:
        """The owners of handles whose processes have ended since this was asked last. Those handles are dropped."""
        found = self.ends.poll(0) if self.ends else []
        return [self.drop(handle) for handle, _ in found]

    def drop(self, handle: int) -> Owner:
        """Closes a handle, which is not used any more."""
        owner = self.owners.pop(handle)
        if self.ends:
            with contextlib.suppress(OSError):
                self.ends.unregister(handle)
        os.close(handle)
        return owner

    def end(self) -> None:
        for handle in [*self.owners]:
            self.drop(handle)
        if self.ends:
            self.ends.close()
        self.ends = None

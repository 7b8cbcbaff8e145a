"""A limit of processes for one master: a control group of its own where root may make one, and a limit of its user elsewhere. Where
neither is possible, it is one of descriptors, which the system answers alike."""
import os
import pathlib
import resource
import uuid

from gate.waiting import until


def place_of_groups() -> pathlib.Path | None:
    """Where control groups can be made whose processes are counted."""
    for line in pathlib.Path("/proc/mounts").read_text().splitlines():
        _, place, kind, options, *_ = line.split()
        path, words = pathlib.Path(place), options.split(",")
        if kind == "cgroup" and {"pids", "rw"} <= set(words):
            return path
        if kind == "cgroup2" and "rw" in words and "pids" in (path / "cgroup.subtree_control").read_text().split():
            return path
    return None


class Limit:
    """A master that may start no process while this is set."""

    def __init__(self, master: int):
        self.master, self.kind = master, "processes"
        self.number, self.limits = resource.RLIMIT_NPROC, resource.prlimit(master, resource.RLIMIT_NPROC)
        place = None if os.geteuid() else place_of_groups()
        self.group = place / f"prefork-check-{uuid.uuid4().hex}" if place else None
        if self.group:
            self.group.mkdir()
            (self.group / "cgroup.procs").write_text(str(master))
        elif not os.geteuid():
            # (root has no limit of its user)
            self.kind = "descriptors"
            self.number, self.limits = resource.RLIMIT_NOFILE, resource.prlimit(master, resource.RLIMIT_NOFILE)

    def set(self) -> None:
        if self.group:
            (self.group / "pids.max").write_text("1")
        else:
            resource.prlimit(self.master, self.number, (3 if self.kind == "descriptors" else 1, self.limits[1]))

    def lift(self) -> None:
        if self.group:
            (self.group / "pids.max").write_text("max")
        else:
            resource.prlimit(self.master, self.number, self.limits)

    def remove(self) -> None:
        """Removes the group, once what was started in it has ended."""
        if self.group:
            until("the end of a control group", self.is_removed)

    def is_removed(self) -> bool:
        try:
            os.rmdir(self.group or "")
        except FileNotFoundError:
            return True
        except OSError:
            return False
        return True

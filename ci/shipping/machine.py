"""A machine with a real systemd: the first process of name spaces of its own, on a copy of this machine's files that is
forgotten. Nothing of it is seen from outside, and it has a network of its own."""
import contextlib
import os
import pathlib
import signal
import subprocess
import uuid
from typing import Any

from gate.waiting import Wrong, until
from shipping.room import Missing, Room, needs, needs_root, ran

SYSTEMD = "/lib/systemd/systemd"
# How long it may take to be up, on a busy machine.
BOOT_SECONDS = 300.0
# Makes the copy and the usual places in the folder that is named, and becomes systemd, which starts little.
BOOT = r"""
set -e
mount --make-rprivate /
mount -t tmpfs tmpfs "$1"
mkdir "$1/upper" "$1/work" "$1/root"
mount -t overlay overlay -o "lowerdir=/,upperdir=$1/upper,workdir=$1/work" "$1/root"
cd "$1/root"
mount -t proc proc proc
mount -t sysfs sysfs sys
mount -t cgroup2 cgroup2 sys/fs/cgroup
mount -t tmpfs tmpfs run
mount -t tmpfs tmpfs tmp
mount -t tmpfs -o mode=755 tmpfs dev
for name in null zero full random urandom tty; do touch "dev/$name"; mount --bind "/dev/$name" "dev/$name"; done
mkdir dev/pts dev/shm dev/mqueue
mount -t devpts -o newinstance,ptmxmode=666,mode=620 devpts dev/pts
mount -t tmpfs tmpfs dev/shm
mount -t mqueue mqueue dev/mqueue
ln -s pts/ptmx dev/ptmx
ln -s /proc/self/fd dev/fd
# The machine's own services are not started, and none is enabled as at a first start.
rm -rf etc/systemd/system/*.wants usr/lib/systemd/system/*.wants
rm -f etc/machine-id
echo "$2" >etc/machine-id
cat >etc/systemd/system/prefork-check.target <<END
[Unit]
Requires=systemd-journald.service basic.target
After=systemd-journald.service basic.target
END
ip link set lo up
mkdir -p old
pivot_root . old
cd /
umount -l /old
exec env -i container=prefork PATH=/usr/sbin:/usr/bin:/sbin:/bin %s --system --unit=prefork-check.target --show-status=no
""" % SYSTEMD
SPACES = ("--mount", "--pid", "--fork", "--kill-child=KILL", "--net", "--ipc", "--uts", "--cgroup")


def place_of_groups() -> pathlib.Path:
    """Where control groups of version 2 are made."""
    for line in pathlib.Path("/proc/mounts").read_text().splitlines():
        words = line.split()
        if words[2] == "cgroup2" and "rw" in words[3].split(","):
            return pathlib.Path(words[1])
    raise Missing("no control groups of version 2 can be made")


class Machine:
    """It is started by `begin`, and has ended after `end`."""

    def __init__(self, room: Room):
        needs_root()
        needs("unshare", "nsenter", "ip", "pivot_root", "systemctl", "journalctl", "dpkg", "dpkg-deb", "useradd")
        if not os.access(SYSTEMD, os.X_OK):
            raise Missing(f"{SYSTEMD} is not there")
        self.room, self.name = room, f"prefork-check-{uuid.uuid4().hex}"
        self.group = place_of_groups() / self.name
        self.said = room.path / "boot"
        # What holds the name spaces, and systemd, by the number that it has outside.
        self.holder: Any = None
        self.first = 0

    def begin(self) -> None:
        place = self.room.path / "machine"
        place.mkdir()
        try:
            self.group.mkdir()
        except OSError as fault:
            raise Missing(f"no control group of its own: {fault.strerror}") from fault
        enter = 'echo $$ >"$0/cgroup.procs" && exec "$@"'
        command = ["unshare", *SPACES, "sh", "-c", BOOT, "sh", place, uuid.uuid4().hex]
        with open(self.said, "w") as said:
            streams: dict[str, Any] = {"stdin": subprocess.DEVNULL, "stdout": said, "stderr": said}
            self.holder = subprocess.Popen(["sh", "-c", enter, str(self.group), *map(str, command)], **streams)
        try:
            until("systemd", lambda: self.holder.poll() is not None or self.find_systemd(), BOOT_SECONDS)
        except Wrong:
            self.holder.kill()
            self.holder.wait()
        if self.holder.poll() is not None:
            said_last = (self.said.read_text().splitlines() or ["it says nothing"])[-1]
            raise Missing(f"systemd does not run in name spaces here: {said_last}")

    def find_systemd(self) -> bool:
        process = self.holder.pid
        children = pathlib.Path(f"/proc/{process}/task/{process}/children").read_text().split()
        if not children:
            return False
        self.first = int(children[0])
        name = pathlib.Path(f"/proc/{self.first}/comm").read_text().strip()
        return name == "systemd" and self.run("systemctl", "is-system-running").stdout.strip() in ("running", "degraded")

    def command(self, *words: Any) -> list[str]:
        """What runs a command in there."""
        return ["nsenter", f"--target={self.first}", "--all", "--root", "--wd", *map(str, words)]

    def run(self, *words: Any) -> subprocess.CompletedProcess[str]:
        environment = {"PATH": "/usr/sbin:/usr/bin:/sbin:/bin", "LC_ALL": "C"}
        return ran(*self.command(*words), env=environment)

    def path(self, path: str) -> pathlib.Path:
        """A file of it, as it is seen from outside."""
        return pathlib.Path(f"/proc/{self.first}/root{path}")

    def write(self, path: str, text: str) -> None:
        """Writes a file as a whole."""
        file = self.path(path)
        file.parent.mkdir(parents=True, exist_ok=True)
        new = file.with_name(f".{file.name}.new")
        new.write_text(text)
        new.chmod(0o644)
        new.replace(file)

    def end(self) -> None:
        """Ends what holds the name spaces: all processes in them end with it."""
        if self.holder and self.holder.poll() is None:
            self.holder.send_signal(signal.SIGKILL)
            self.holder.wait()
        with contextlib.suppress(Wrong):
            until("the end of the machine", self.is_removed)

    def is_removed(self) -> bool:
        """Removes its control groups, the lowest first, as far as they are empty."""
        for folder, _, _ in os.walk(self.group, topdown=False):
            with contextlib.suppress(OSError):
                os.rmdir(folder)
        return not self.group.exists()

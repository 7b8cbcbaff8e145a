"""A small disk for the folder of a service, which can be full: a tmpfs in a name space of its own."""
import pathlib
import subprocess

APART = ["unshare", "--user", "--map-root-user", "--mount"]
HOLDS = 'mount -t tmpfs -o size=4m none "$0" && echo mounted && exec sleep 100000'


class Disk:
    """A disk that is mounted for the processes that enter it, as long as its holder lives; or a plain folder where none can be
    mounted."""

    def __init__(self, place: pathlib.Path, environment: dict[str, str]):
        place.mkdir()
        self.place, self.is_own = place, True
        how = {"stdin": subprocess.DEVNULL, "stdout": subprocess.PIPE, "stderr": subprocess.DEVNULL, "env": environment}
        self.holder = subprocess.Popen([*APART, "sh", "-c", HOLDS, str(place)], **how)  # type: ignore[call-overload]
        said = self.holder.stdout.readline()
        if said != b"mounted\n" or not self.can_enter():
            self.close()
            self.is_own = False

    def entering(self) -> list[str]:
        """What starts a command on the disk."""
        return ["nsenter", "-t", str(self.holder.pid), "-U", "-m", "--preserve-credentials"] if self.is_own else []

    def can_enter(self) -> bool:
        return subprocess.run([*self.entering(), "true"], capture_output=True).returncode == 0

    def outside(self) -> pathlib.Path:
        """The path of the disk for everybody else."""
        return pathlib.Path(f"/proc/{self.holder.pid}/root{self.place}") if self.is_own else self.place

    def fill(self) -> None:
        """Takes all that is left of the disk."""
        with open(self.outside() / "fill", "wb", 0) as filling:
            try:
                while filling.write(b"x" * 4096):
                    pass
            except OSError:
                pass

    def free(self) -> None:
        (self.outside() / "fill").unlink(missing_ok=True)

    def close(self) -> None:
        self.holder.kill()
        self.holder.wait()

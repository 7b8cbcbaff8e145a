"""Where the programs of the service are."""
import pathlib
import sys

HOME = pathlib.Path(__file__).resolve().parent.parent
BIN = HOME / "bin"
KEEPER, WSGI = BIN / "prefork-keeper", BIN / "prefork-wsgi"
# What prefork-serve alone starts.
WATCH, READ = HOME / "libexec" / "prefork-watch", HOME / "libexec" / "prefork-read"
ACTIVATE, LAUNCH = HOME / "out" / "prefork-activate", HOME / "out" / "prefork-launch"
SHIM = HOME / "out" / "prefork-shim"


def in_python(program: object) -> list[str]:
    """How a program of ours is started in Python by another one: in the same, without what others add to it (`-S`)."""
    return [sys.executable, "-S", str(program)]

"""A service without a file: what its command line says becomes the configuration that it reads."""
import argparse
import json

from .commands import GIVEN
from .folder import Folder, say

ADDRESS, WORKERS, QUICK_TIMEOUT = "127.0.0.1:8080", 2, 60
BOTH = "give CONFIG, or --listen and --workers in its place, not both"
NOTHING_GIVEN = "give CONFIG, or a PROGRAM or --wsgi with --listen and --workers (127.0.0.1:8080 and 2)"


def fault_of_file(given: argparse.Namespace) -> str | None:
    """What is wrong with a command line: it names a file and what is in one, or nothing that could be served."""
    if given.config and (given.listen or given.workers):
        return BOTH
    return None if given.config or given.wsgi or given.program else NOTHING_GIVEN


def configured(given: argparse.Namespace, folder: Folder) -> str:
    """Writes the configuration of a service that has no file; the path of that copy."""
    listeners, workers = given.listen or [ADDRESS], given.workers or WORKERS
    file = folder.path / "commands" / GIVEN
    file.parent.mkdir(mode=0o700, exist_ok=True)
    told = {"listeners": listeners, "workers": workers, "timeout": QUICK_TIMEOUT}
    file.write_text("".join(f"{key} = {json.dumps(value)}\n" for key, value in told.items()))
    places = " ".join(address if address.startswith("/") else f"http://{address}/" for address in listeners)
    say(f"{workers} worker{'s' if workers > 1 else ''} at {places}")
    return str(file)

"""What a word would do to a service as it runs now: how `prefork plan` and `prefork explore` are asked."""
import pathlib

from .forms import Status
from .named import groups_of
from .words import CHANGES



def rehearsal(kind: str, word: str, status: Status, options: list[str]) -> list[str]:
    """The command that rehearses a word from the configuration that was accepted, with as many workers as run now, to
    the one that the file has now. In what it prints the generation that runs is 1.1."""
    service = status["service"]
    accepted = pathlib.Path(service["folder"]) / "config.toml"
    goal = ["--to", service["file"]] if word in CHANGES else []
    running = workers_now(accepted.read_bytes(), len(status["workers"]))
    return [service["prefork"], kind, "--why", "--from", str(accepted), *goal, *running, *options, word]


def workers_now(text: bytes, count: int) -> list[str]:
    """The option for a service that has other numbers of workers than its configuration says."""
    groups = groups_of(text)
    if count == sum(workers for workers, _ in groups):
        return []
    return ["--workers", str(count)]

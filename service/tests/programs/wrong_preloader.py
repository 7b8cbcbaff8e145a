"""wrong_preloader.py FAULT MODULE:APP: the preloader of prefork-wsgi, with one of these faults, or with no fault."""
import os
import pathlib
import sys

sys.path[:0] = [str(pathlib.Path(__file__).resolve().parents[2])]
from prefork_service import wsgi
from prefork_service.preloader import Lifeline, Preloader

tell = Preloader.tell


def forgets(self: Preloader, number: int) -> None:
    self.events.unregister(number)


FAULTS = {
    # It keeps what the shim has handed over.
    "keeps": (Preloader, "put_away", lambda self, connection, given: given.append(connection.detach())),
    # Its workers keep what is its own.
    "hands": (Preloader, "forget", lambda self, kept=None: setattr(self, "events", None)),
    # Its workers do not end with their shims.
    "loose": (Lifeline, "fasten", lambda self: self.tell(f"pid {os.getpid()}")),
    "silent": (Preloader, "tell", lambda self, text: tell(self, text) if text != "forked" else None),
    "buries": (Preloader, "bury", lambda self, opened: forgets(self, opened)),
    # It goes on at the end of its input.
    "stays": (Preloader, "hear_life", lambda self, number: forgets(self, number)),
}
fault = sys.argv.pop(1)
if fault in FAULTS:
    place, name, wrong = FAULTS[fault]
    setattr(place, name, wrong)
sys.exit(wsgi.main())

"""A Unix socket whose path somebody removes."""
import os

from gate.waiting import until
from web.listeners import answer_at, path_of
from web.site import Scenario, Site
from web.starts import status


def a_removed_path_is_opened_anew(site: Site) -> None:
    """HUP opens it, and so does USR2. Until then the status names it."""
    path = path_of(site)
    site.begin(listeners=[site.first, path])
    for word in ("HUP", "USR2"):
        os.unlink(path)
        until("the path in the status", lambda: status(site)["lost_paths"] == [path])
        site.wants(word, 0, "done", 2)
        site.check(f"{path} isn't served after {word}", "version 1 " in answer_at(path))
        until("no path in the status", lambda: not status(site)["lost_paths"])
    site.end("1")
    site.certify()


SCENARIOS: tuple[Scenario, ...] = (a_removed_path_is_opened_anew,)

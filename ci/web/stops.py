"""A stop whose master is killed before it is done: requests in progress are answered, and the service ends."""
import concurrent.futures
from collections.abc import Callable

from gate.addresses import answer_of
from gate.waiting import SECONDS, until
from web.relays import RELAY, only, upgraded
from web.site import Scenario, Site, text_of


def dies(site: Site, victim: Callable[[Site], int | None], has_upgrade: bool) -> None:
    """A process is killed while QUIT is carried out, and a request is on its way."""
    began = site.hold_slow()
    site.begin()
    if has_upgrade:
        upgraded(site, 2)
    site.check_load(site.end_load(), "12" if has_upgrade else "1")
    with concurrent.futures.ThreadPoolExecutor(1) as pool:
        slow = pool.submit(answer_of, site.first, "/slow", SECONDS)
        try:
            until("the slow request", began.exists)
            sent = site.sent("QUIT")
            until("the stop", lambda: "QUIT begins" in text_of(site.run / "journal"))
            site.kill(victim(site))
        finally:
            site.hold.unlink()
        site.check(f"the slow request: {slow.result()}", slow.result().startswith(f"version {1 + has_upgrade} "))
    block, faults = sent.communicate(timeout=SECONDS)
    site.check(f"QUIT: {sent.returncode}, {block}{faults}", sent.returncode == 1 and "lost" in block)
    site.check("serve ends with another status", site.serve.wait(SECONDS) == 0)
    site.nothing_left()
    site.check("another master was started", text_of(site.run / "journal").count(" starts; its blocks are in ") == 1)


def a_master_is_killed_in_a_stop(site: Site) -> None:
    dies(site, Site.master, False)


def the_first_master_is_killed_in_a_stop(site: Site) -> None:
    """After an upgrade."""
    dies(site, Site.master, True)


def a_new_master_is_killed_in_a_stop(site: Site) -> None:
    dies(site, Site.new_master, True)


def a_relay_is_killed_in_a_stop(site: Site) -> None:
    dies(site, lambda it: only(it, RELAY), True)


SCENARIOS: tuple[Scenario, ...] = (
    a_master_is_killed_in_a_stop, the_first_master_is_killed_in_a_stop, a_new_master_is_killed_in_a_stop, a_relay_is_killed_in_a_stop,
)

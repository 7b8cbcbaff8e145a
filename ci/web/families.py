"""Listeners of both families on one port."""
import functools

from gate.addresses import answer_of, ipv6_beside, is_refused
from gate.waiting import until
from web.faults import another_keeper
from web.site import Scenario, Site


def both_families(site: Site) -> None:
    """A dotted address and an IPv6 one on the same port: reloads that drop and add the second, an upgrade, a keeper and a
    master that are killed. The load is on the first. Nothing is looked at on a machine without IPv6."""
    six = ipv6_beside(site.first)
    if not six:
        print("both_families: no IPv6 loopback, so only the dotted address is looked at", flush=True)
        site.begin()
        site.end("1")
        return
    both = [site.first, six]
    site.begin(listeners=both)
    serves_at(site, six, "the start")
    site.go_over_to()
    site.wants("HUP", 0, "done", 2)
    until("the dropped address is refused", functools.partial(is_refused, six))
    site.configure(listeners=both)
    site.wants("HUP", 0, "done", 2)
    serves_at(site, six, "the way back")
    site.wants("USR2", 0, "done", 2)
    serves_at(site, six, "an upgrade")
    keeper = site.keeper()
    site.kill(keeper)
    another_keeper(site, keeper)
    site.wants("HUP", 0, "done", 2)
    serves_at(site, six, "the end of a keeper")
    site.end("1")


def serves_at(site: Site, address: str, after: str) -> None:
    site.check(f"{address} isn't served after {after}", answer_of(address).startswith("version 1 "))


SCENARIOS: tuple[Scenario, ...] = (both_families,)

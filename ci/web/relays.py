"""What is between the first master and the one in charge is killed: no request is lost, and the next upgrade is done."""
from gate.waiting import until
from web.deaths import has_recovered
from web.records import certified
from web.site import Scenario, Site

RELAY, DEPUTY = "prefork-relay", "prefork-deputy"


def upgraded(site: Site, number: int) -> None:
    site.install(site.version(number))
    site.wants("USR2", 0, "done", 2)
    site.answered_by(number)


def new_masters(site: Site) -> list[int]:
    return [number for number, words in site.mark.processes().items() if words[:2] == [site.prefork, "adopt"]]


def certify_relay(site: Site) -> None:
    said, faults, ended = certified(site)
    site.check(f"certify: {ended} {said} {faults}", ended == 0 and "accepted" in said)


def only(site: Site, name: str) -> int:
    """The one process of a name."""
    until(name, lambda: len(site.named(name)) == 1)
    return site.named(name).pop()


def a_relay_is_killed(site: Site) -> None:
    """After two upgrades the relay is killed, and with it the master in charge: its workers serve on until those of the next
    master are ready."""
    site.begin()
    for number in (2, 3):
        upgraded(site, number)
    old = site.workers()
    site.kill(only(site, RELAY))
    until("two workers of the next master", lambda: has_recovered(site, old))
    upgraded(site, 4)
    site.end("1234")
    certify_relay(site)


def a_deputy_is_killed(site: Site) -> None:
    """In the second upgrade, while the new workers load, the deputy of the new master is killed: the upgrade is rolled back,
    and the next one is done."""
    site.begin()
    upgraded(site, 2)
    hold = site.room / "loads"
    hold.touch()
    old = site.workers()
    site.install(site.version(3, str(hold)))
    sent = site.sent("USR2")
    site.kill(only(site, DEPUTY))
    until("the end of the new master", lambda: len(new_masters(site)) == 1)
    # (its workers hear of that once they read)
    hold.unlink()
    site.heard(sent, "USR2", 3, "rolled-back", 2)
    site.check("the old workers are not those from before", old == site.workers())
    upgraded(site, 3)
    site.end("123")
    certify_relay(site)


SCENARIOS: tuple[Scenario, ...] = (a_relay_is_killed, a_deputy_is_killed)

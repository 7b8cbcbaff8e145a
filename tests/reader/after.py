"""What a master's record becomes once a plan has ended (After.antt). `listener_at` is Listener itself."""
from reader.addresses import Address, Addresses, has
from reader.crews import Crew, Posts
from reader.groups import Groups
from reader.master import (
    Attended, Record, Reload, Stop, Target, Upgrade, Workers, generation_wanted, has_next, reload_generation,
    upgrade_generation,
)
from reader.numbers import Numbers, first_from
from reader.settings import Settings
from reader.table import Table, live_master
from reader.vocabulary import AnyOutcome, Degraded, Generation, Listener, Listeners, Outcome, Report, Side

# Listeners that open and close


def listens_on(ls: Listeners, a: Address) -> bool:
    return any(l.address == a for l in ls)


def opened_from(fd: int, a: Address, ls: Listeners) -> Listeners:
    """An address at the lowest free descriptor; the listeners are those from the descriptor fd on, ascending."""
    if ls and ls[0].descriptor == fd:
        return (ls[0], *opened_from(fd + 1, a, ls[1:]))
    return (Listener(fd, a), *ls)


def all_opened(addresses: Addresses, ls: Listeners) -> Listeners | None:
    """Addresses opened one after another, each at the descriptor that is the lowest free one then; a process has 64
    descriptors."""
    for a in addresses:
        if not len(ls) < 64:
            return None
        ls = opened_from(3, a, ls)
    return ls


def added(addresses: Addresses, ls: Listeners) -> Addresses:
    """The addresses of a list that are not listened on, in its order."""
    return tuple(a for a in addresses if not listens_on(ls, a))


def still_wanted(addresses: Addresses, ls: Listeners) -> Listeners:
    """The listeners whose addresses a list has; the others are closed."""
    return tuple(l for l in ls if has(addresses, l.address))


def with_added(addresses: Addresses, ls: Listeners) -> Listeners | None:
    """The listeners, with what is added."""
    return all_opened(added(addresses, ls), ls)


def reloaded(addresses: Addresses, ls: Listeners) -> Listeners | None:
    """A reload opens what is added, and closes what is dropped at its end."""
    opened = with_added(addresses, ls)
    return None if opened is None else still_wanted(addresses, opened)


def upgraded(addresses: Addresses, ls: Listeners) -> Listeners | None:
    """The new master of an upgrade closes what is dropped, and then opens what is added."""
    return with_added(addresses, still_wanted(addresses, ls))


# Where the workers of a target listen


def descriptors_at(ls: Listeners, addresses: Addresses) -> Numbers:
    """The descriptors of the listeners whose addresses a list has."""
    return tuple(l.descriptor for l in ls if has(addresses, l.address))


def descriptors_by(gs: Groups, addresses: Addresses, ls: Listeners) -> tuple[Numbers, ...]:
    """Of each group the descriptors: it takes its number of addresses, the next ones."""
    if not gs:
        return ()
    own, others = addresses[:gs[0].addresses], addresses[gs[0].addresses:]
    return (descriptors_at(ls, own), *descriptors_by(gs[1:], others, ls))


def posts_of(groups: Groups, addresses: Addresses, ls: Listeners) -> Posts:
    return Posts(groups, descriptors_by(groups, addresses, ls))


def listeners_then(r: Record, target: Target) -> Listeners:
    """The listeners while the target's workers are started: with what is added, and, of an upgrade, without what is
    dropped. Where the added ones are too many no worker is started, and it does not matter."""
    found: Listeners | None = None
    match target:
        case Reload(s):
            found = with_added(s.listeners, r.listeners)
        case Upgrade(s) | Attended(s):
            found = upgraded(s.listeners, r.listeners)
    return r.listeners if found is None else found


def posts_wanted(r: Record, target: Target) -> Posts:
    match target:
        case Reload(s) | Upgrade(s) | Attended(s):
            return posts_of(s.groups, s.listeners, listeners_then(r, target))
        case _:
            return r.posts


def crew_wanted(r: Record, t: Target) -> Crew:
    """The workers that a target wants, as they are started."""
    return Crew(generation_wanted(r, t), posts_wanted(r, t))


# The record of a service


def next_config(g: Generation) -> Generation | None:
    """The generation of a reload."""
    return reload_generation(g) if has_next(g.config) else None


def next_image(g: Generation) -> Generation | None:
    """The generation of an upgrade."""
    return upgrade_generation(g) if has_next(g.image) and has_next(g.config) else None


def renewed(r: Record, s: Settings, posts: Posts, ls: Listeners | None, g: Generation | None) -> Record | None:
    """A record with the service of new settings."""
    if ls is None or g is None:
        return None
    return r._replace(listeners=ls, posts=posts, generation=g, wanted=s.workers, retries=s.retries, timeout=s.timeout)


def target_record(r: Record, target: Target) -> Record | None:
    """The record with the target's service; a stop has none."""
    match target:
        case Workers(n):
            return r._replace(wanted=n)
        case Reload(s):
            ls, g = reloaded(s.listeners, r.listeners), next_config(r.generation)
            return renewed(r, s, posts_wanted(r, target), ls, g)
        case Upgrade(s) | Attended(s):
            ls, g = upgraded(s.listeners, r.listeners), next_image(r.generation)
            return renewed(r, s, posts_wanted(r, target), ls, g)
        case Stop():
            return None
        case _:
            return r


def old_record(r: Record, target: Target) -> Record | None:
    """The record with the service that ran before; nothing runs after a stop."""
    return None if isinstance(target, Stop) else r


def named_record(outcome: AnyOutcome, r: Record, t: Target) -> Record | None:
    """The record with the service that an outcome names."""
    match outcome:
        case Outcome.Done | Degraded(Side.Target, _):
            return target_record(r, t)
        case Outcome.RolledBack | Degraded(Side.Old, _):
            return old_record(r, t)
        case _:
            return None


# The next record


def reported(r: Record, report: Report, pid: int) -> Record:
    """A record with what a report says, and the process number of the master."""
    return r._replace(ready=report.ready, note=report.note, pid=pid)


def keeps_rules(r: Record) -> bool:
    """What a report might break of the rules of a record: it listens, at most 1024 workers are wanted, each ready
    number is below the wanted count, and there is a process number."""
    return 1 <= len(r.listeners) and r.wanted <= 1024 and first_from(r.wanted, r.ready) is None and 1 <= r.pid


def record_from(r: Record | None, report: Report, pid: int) -> Record | None:
    record = None if r is None else reported(r, report, pid)
    return record if record is not None and keeps_rules(record) else None


def record_after(r: Record, t: Target, report: Report, pid: int) -> Record | None:
    """The record after a plan for a target: the service that the report names, with its ready numbers and its note.
    None after a stop, if the run was lost, or if the result would break the rules of a record."""
    return record_from(named_record(report.outcome, r, t), report, pid)


# The master that reigns then


def master_of(r: Record | None, t: Table) -> int | None:
    """The process number of the live master of a service's image."""
    caller = None if r is None else live_master(r.generation.image, t.rows)
    return None if caller is None else caller.number


def next_record(r: Record, t: Target, report: Report, last: Table) -> Record | None:
    """The record that a report leaves to the master that reigns in the last table: the live master of the image of the
    service that the outcome names."""
    pid = master_of(named_record(report.outcome, r, t), last)
    return None if pid is None else record_after(r, t, report, pid)

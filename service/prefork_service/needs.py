"""How many descriptors and processes a service needs while it reloads, and whether the limits allow them.

A reload starts all new workers before an old one ends: twice as many run for a while. Each worker has two pipes to its
master, and a connection to the keeper. A worker that is started by a `command` may have one for each of its addresses.
"""
import dataclasses
import os
import pathlib
import resource

from .named import groups_of

# Descriptors beside those of workers: of the keeper and of prefork-serve with clients at their doors, and of a master.
KEEPER_REST, SERVE_REST, MASTER_REST, PIPES = 80, 160, 24, 2
# Those of visitors of a page, or of metrics at an address.
SITE = 40
# Of a preloader beside one for each worker, and of prefork-serve for its preloaders; how many preloaders run at a time.
PRELOADER_REST, PRELOADED, PRELOADERS = 64, 16, 2
# prefork-serve, its keeper, three masters, the relay between them, the deputy of one, and a word on its way.
OWN_PROCESSES = 8


@dataclasses.dataclass
class Needs:
    """What a reload needs at its most."""

    keeper: int
    serve: int
    master: int
    processes: int
    preloader: int = 0


def needs_of(text: bytes, processes_each: int, sites: int = 0, is_adapted: bool = False, is_forked: bool = False) -> Needs:
    """What the configuration needs, whose workers are some processes each, where prefork-serve has some pages. A worker
    with an adapter has one connection to the keeper. One that is forked by a preloader has that too."""
    groups = groups_of(text)
    workers, listeners = sum(count for count, _ in groups), sum(count for _, count in groups)
    connections = workers if is_adapted else sum(workers * listeners for workers, listeners in groups)
    return Needs(
        KEEPER_REST + 2 * connections + listeners, SERVE_REST + listeners + SITE * sites + PRELOADED * is_forked,
        MASTER_REST + 2 * PIPES * workers, OWN_PROCESSES + 2 * processes_each * workers + PRELOADERS * is_forked,
        (PRELOADER_REST + workers) * is_forked,
    )


def most_processes() -> int | None:
    """How many processes the system allows this user, or its control group; nothing if there is no limit."""
    found = []
    soft, _ = resource.getrlimit(resource.RLIMIT_NPROC)
    if soft != resource.RLIM_INFINITY and os.geteuid():
        found.append(soft)
    try:
        own = pathlib.Path("/proc/self/cgroup").read_text().rpartition("::")[2].strip()
        texts = (pathlib.Path(f"/sys/fs/cgroup{own}") / "pids.max").read_text()
        found += [int(texts)] if texts.strip().isdigit() else []
    except OSError:
        pass
    return min(found, default=None)


def shortages(needs: Needs) -> list[str]:
    """What the limits do not allow, each with what to do. The keeper takes as many descriptors as it may have; the
    other processes have what they were started with, as workers do."""
    soft, hard = resource.getrlimit(resource.RLIMIT_NOFILE)
    found = []
    for process, needed, limit in (
        ("its keeper", needs.keeper, hard), ("its master", needs.master, soft), ("prefork-serve", needs.serve, soft),
        ("its preloader", needs.preloader, soft),
    ):
        if limit != resource.RLIM_INFINITY and needed > limit:
            found.append(f"a reload needs {needed} descriptors in {process}, and {limit} are allowed: ulimit -n, LimitNOFILE=")
    most = most_processes()
    if most is not None and needs.processes > most:
        found.append(f"a reload needs {needs.processes} processes, and {most} are allowed: ulimit -u, TasksMax=")
    return found

"""How many workers live at once during a reload (stepped_reloads/specs/Steps.antt)."""
from reader.master import Record, Reload, Target
from reader.run import Ran
from reader.settings import Settings
from reader.steps import Step, rollout_of
from reader.numbers import Numbers
from reader.table import Table, Worker
from reader.vocabulary import Stance


def drained_in(first: Table) -> set[int]:
    """The processes that drained at first."""
    return {p.number for p in first.rows if isinstance(p, Worker) and p.stance is Stance.Draining}


def living_of(drained: set[int], r: Record, t: Table) -> int:
    """The workers of the master that are Starting, Ready or Draining, and did not drain at first."""
    mine = [p for p in t.rows if isinstance(p, Worker) and p.parent == r.pid and p.stance is not Stance.Exited]
    return sum(p.number not in drained for p in mine)


def most_of(live: int, steps: tuple[Step, ...], last: Numbers) -> int:
    """So many live before these steps: in each its new workers come, and then its old ones go. The most at once."""
    most = live
    for step in steps:
        most = max(most, live + len(step.starts))
        live += len(step.starts) - len(step.quits)
    return max(most, live + len(last))


def ceiling_of(r: Record, s: Settings, surge: int) -> int:
    """The most in a reload that starts so many in a step."""
    rollout = rollout_of(r, s, surge)
    return most_of(len(r.ready), rollout.steps, rollout.last)


def StaysBelow(first: Table, r: Record, target: Target, ran: Ran) -> bool:
    """At no table of a reload do more of the master's workers live."""
    if not isinstance(target, Reload):
        return True
    drained, most = drained_in(first), ceiling_of(r, target.settings, target.settings.surge)
    return all(living_of(drained, r, p.table) <= most for p in ran.passed)

"""How many steps plans have (call_laws/specs/Lengths.antt)."""
from reader.addresses import Addresses
from reader.after import crew_wanted
from reader.crews import Crew
from reader.master import Attended, Record, Target, Upgrade, addresses_of, crew_of
from reader.pieces import spawn_edges
from reader.plans import back_from, does, move_aside, new_part, old_part, plan_tree, taken_over
from reader.run import Branches, Ends, Tree, shown
from reader.vocabulary import End, SpawnMaster

# the trees that were measured, each with its height
Measured = dict[int, tuple[Tree, int]]


def height(tree: Tree, measured: Measured | None = None) -> int:
    """The number of steps on the longest path."""
    # (a tree that is in several places is measured once)
    measured = {} if measured is None else measured
    if id(tree) not in measured:
        at = shown(tree)
        measured[id(tree)] = tree, 0 if isinstance(at, Ends) else 1 + highest(at.branches, measured)
    return measured[id(tree)][1]


def highest(branches: Branches, measured: Measured) -> int:
    return max((height(edge.rest, measured) for edge in branches), default=0)


def upgrade_length(attended: bool, r: Record, new: Crew, wanted: Addresses, n: int) -> int:
    """The steps on its longest path: those before the parts, both parts, and the longer of what follows them."""
    by, old, heir = r.generation.image, crew_of(r), new.generation.image
    back = back_from(by, heir, old, r.ready, r.retries, r.pid_path)
    spawn = does(by, SpawnMaster(heir), spawn_edges(Ends(End.Split), Ends(End.Done)))
    ready = taken_over(attended, by, old, new, r.ready, r.retries, r.pid_path, n, back)
    return (
        height(move_aside(by, r.pid_path, r.note, spawn, Ends(End.Done)))
        + height(new_part(new, addresses_of(r), wanted, n))
        + height(old_part(by, old, r.ready, r.retries))
        + max(height(ready), height(back))
    )


def plan_length(r: Record, target: Target) -> int:
    """The steps on the longest path of a target's plan."""
    match target:
        case Upgrade(s):
            return upgrade_length(False, r, crew_wanted(r, target), s.listeners, s.workers)
        case Attended(s):
            return upgrade_length(True, r, crew_wanted(r, target), s.listeners, s.workers)
        case _:
            return height(plan_tree(r, target, ()))

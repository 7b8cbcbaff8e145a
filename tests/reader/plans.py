"""The tree of each target, from named pieces (Plans.antt). `round` is round_of, since Python has a round."""
from collections.abc import Callable
from functools import partial

from reader.addresses import Addresses, FilePath
from reader.after import crew_wanted
from reader.crews import Crew
from reader.master import (
    Attended, Mend, Record, Reload, Reopen, Stop, Target, Upgrade, Workers, addresses_of, crew_of, fork_of, oldbin,
)
from reader.numbers import Numbers, is_in, numbers_below
from reader.run import (
    AwaitLacking, Branch, Branches, Does, Ends, ForkLacking, KillLacking, Later, Make, Tree, plain_reply, shown,
)
from reader.settings import Settings
from reader.steps import Rollout, Step, rollout_of
from reader.vocabulary import (
    Adopt, Alive, Ask, AwaitGone, AwaitReady, Call, Census, CloseAt, End, Fork, Generation, Kill, Leave, MovePid,
    OpenAt, PidNote, Quit, RemovePid, Reply, Side, SpawnMaster, TermMaster, Turn, Usr1, WritePid,
)

Turns = tuple[Turn, ...]

# Edges and steps

Replies = tuple[Reply, ...]

# the replies to a call but the plain one, where there are such
FAILED: dict[type, Replies] = {
    OpenAt: (Reply.InUse, Reply.TooMany, Reply.Denied, Reply.NoMemory),
    Fork: (Reply.Again, Reply.NoMemory),
    AwaitReady: (Reply.Gone, Reply.Late),
    Census: (Reply.Short,),
    AwaitGone: (Reply.Late,),
    SpawnMaster: (Reply.Again, Reply.NoMemory, Reply.NoImage),
    Adopt: (Reply.Refused,),
    WritePid: (Reply.IoFault,),
    MovePid: (Reply.IoFault,),
    RemovePid: (Reply.IoFault,),
    Alive: (Reply.Gone,),
    Ask: (Reply.Back,),
}


def only_in(addresses: Addresses, others: Addresses) -> Addresses:
    """What the first list has and the second lacks."""
    return tuple(a for a in addresses if a not in others)


def failed_replies(call: Call) -> Replies:
    """The replies to a call but the plain one; besides, each may be answered that the master is gone."""
    return FAILED.get(type(call), ())


def on(replies: Replies, rest: Tree, more: Branches = ()) -> Branches:
    """An edge that sets no note."""
    return (Branch(replies, None, rest), *more)


def then_edge(rest: Tree) -> Branches:
    return on((Reply.Fine,), rest)


def await_any_edges(rest: Tree, late: Tree) -> Branches:
    """The worker may be ready or gone."""
    return on((Reply.IsReady, Reply.Gone), rest, on((Reply.Late,), late))


def note_edges(fine: PidNote | None, fault: PidNote | None, rest: Tree) -> Branches:
    """The rest is the same, and the note is another."""
    return (Branch((Reply.Fine,), fine, rest), Branch((Reply.IoFault,), fault, rest))


def does(by: int, call: Call, branches: Branches) -> Tree:
    return Does(by, Make(call), (), branches)


def either(by: int, call: Call, numbers: Numbers, ok: Tree, bad: Tree) -> Tree:
    """A call, with the set of a census: the plain reply goes on, and any other elsewhere."""
    return Does(by, Make(call), numbers, on((plain_reply(call),), ok, on(failed_replies(call), bad)))


def tells(by: int, calls: tuple[Call, ...], rest: Tree) -> Tree:
    """Calls that have one reply alone, in their order."""
    for call in reversed(calls):
        rest = does(by, call, then_edge(rest))
    return rest


# Settle


def full_end(side: Side) -> End:
    return End.RolledBack if side is Side.Old else End.Done


def short_end(side: Side) -> End:
    return End.ShortOld if side is Side.Old else End.ShortTarget


def round_of(by: int, crew: Crew, rest: Tree) -> Tree:
    """One round: start the lowest number that is lacking, and go on whatever was answered. A failed fork goes straight
    on."""
    kill = Does(by, KillLacking(crew.generation), (), then_edge(rest))
    wait = Does(by, AwaitLacking(crew.generation), (), await_any_edges(rest, kill))
    return Does(by, ForkLacking(crew), (), on((Reply.Forked,), wait, on((Reply.Again, Reply.NoMemory), rest)))


def settle(by: int, crew: Crew, numbers: Numbers, side: Side, rounds: int) -> Tree:
    """A census of the set: full ends well; short makes a round and counts again, as long as rounds are left."""
    if rounds == 0:
        short: Tree = Ends(short_end(side))
    else:
        short = round_of(by, crew, settle(by, crew, numbers, side, rounds - 1))
    return either(by, Census(crew.generation), numbers, Ends(full_end(side)), short)


# Starts, waits and opens


def forks(
    by: int, crew: Crew, ks: Numbers, done: Numbers, ok: Callable[[Numbers], Tree], bad: Callable[[Numbers], Tree]
) -> Tree:
    """Fork these numbers upwards. The first failed fork leads to `bad` of those that were forked, the last first."""
    if not ks:
        return ok(done)
    rest = forks(by, crew, ks[1:], (ks[0], *done), ok, bad)
    return either(by, fork_of(crew, ks[0]), (), rest, Later(lambda: bad(done)))


def awaits(by: int, g: Generation, ks: Numbers, ok: Tree, bad: Tree) -> Tree:
    """Wait for these numbers upwards. The first that fails, killed where it is late, leads to `bad`."""
    if not ks:
        return ok
    unready = on((Reply.Gone,), bad, on((Reply.Late,), tells(by, (Kill(g, ks[0]),), bad)))
    return does(by, AwaitReady(g, ks[0]), on((Reply.IsReady,), awaits(by, g, ks[1:], ok, bad), unready))


def starts(by: int, crew: Crew, ks: Numbers, ok: Tree, bad: Callable[[Numbers], Tree]) -> Tree:
    """Fork all, then wait for all. A failure leads to `bad` of those that were forked, the last first."""
    return forks(by, crew, ks, (), lambda forked: awaits(by, crew.generation, ks, ok, Later(lambda: bad(forked))), bad)


def forks_any(by: int, crew: Crew, ks: Numbers, rest: Tree) -> Tree:
    """Fork these numbers upwards, whatever is answered."""
    for k in reversed(ks):
        rest = does(by, fork_of(crew, k), on((Reply.Forked, Reply.Again, Reply.NoMemory), rest))
    return rest


def awaits_any(by: int, g: Generation, ks: Numbers, rest: Tree) -> Tree:
    """Wait for these numbers upwards, whatever is answered; one that is late is killed."""
    for k in reversed(ks):
        rest = does(by, AwaitReady(g, k), await_any_edges(rest, tells(by, (Kill(g, k),), rest)))
    return rest


def starts_any(by: int, crew: Crew, ks: Numbers, rest: Tree) -> Tree:
    """Fork all, then wait for all, going on after a failure."""
    return forks_any(by, crew, ks, awaits_any(by, crew.generation, ks, rest))


def awaits_gone(by: int, g: Generation, ks: Numbers, rest: Tree) -> Tree:
    """Wait until these are gone, in their order; one that is late is killed."""
    for k in reversed(ks):
        rest = either(by, AwaitGone(g, k), (), rest, tells(by, (Kill(g, k),), rest))
    return rest


def opens(
    by: int,
    addresses: Addresses,
    done: Addresses,
    ok: Callable[[Addresses], Tree],
    bad: Callable[[Addresses], Tree],
) -> Tree:
    """Open these in their order. The first that fails leads to `bad` of those that were opened, the last first."""
    if not addresses:
        return ok(done)
    rest = opens(by, addresses[1:], (addresses[0], *done), ok, bad)
    return either(by, OpenAt(addresses[0]), (), rest, Later(lambda: bad(done)))


# One master


def workers_tree(by: int, crew: Crew, ready: Numbers, retries: int, n: int) -> Tree:
    """The numbers below n that are lacking are started, those from n on quit downwards, and the target settles. A
    failed start quits what was forked, downwards, and the old side settles."""
    lacking = tuple(k for k in numbers_below(n) if not is_in(ready, k))
    quits = tuple(Quit(crew.generation, k) for k in ready[::-1] if not k < n)
    settled = settle(by, crew, numbers_below(n), Side.Target, retries)

    def back(forked: Numbers) -> Tree:
        return tells(by, tuple(Quit(crew.generation, k) for k in forked), settle(by, crew, ready, Side.Old, retries))

    return starts(by, crew, lacking, tells(by, quits, settled), back)


def mend_tree(by: int, crew: Crew, ready: Numbers, retries: int, overdue: Numbers, wanted: int) -> Tree:
    """Those that are overdue and ready are killed; each wanted number that isn't ready or is overdue is started, going
    on after a failure; and the target settles."""
    kills = tuple(Kill(crew.generation, k) for k in overdue if is_in(ready, k))
    missing = tuple(k for k in numbers_below(wanted) if not is_in(ready, k) or is_in(overdue, k))
    settled = settle(by, crew, numbers_below(wanted), Side.Target, retries)
    return tells(by, kills, starts_any(by, crew, missing, settled))


def reopen_tree(by: int, crew: Crew, ready: Numbers, retries: int) -> Tree:
    """Each ready worker is told, and the target settles."""
    usr1s = tuple(Usr1(crew.generation, k) for k in ready)
    return tells(by, usr1s, settle(by, crew, ready, Side.Target, retries))


def reload_on(by: int, old: Crew, new: Crew, left: Numbers, retries: int, dropped: Addresses, n: int) -> Tree:
    """On with a reload: the old workers that are left quit, the dropped addresses are closed in the old order, and the
    target settles."""
    closed = tells(by, tuple(map(CloseAt, dropped)), settle(by, new, numbers_below(n), Side.Target, retries))
    return tells(by, tuple(Quit(old.generation, k) for k in left[::-1]), closed)


def asks(asked: bool, by: int, question: int, on_go: Tree, on_back: Tree) -> Tree:
    """Where it is asked the operator says whether to go on or back; else it goes on."""
    return either(by, Ask(question), (), on_go, on_back) if asked else on_go


def quits_new(by: int, new: Crew, waits: bool, numbers: Numbers, back: Tree, forked: Numbers) -> Tree:
    """A step's new workers quit, and it goes back. Where earlier steps are taken back they are waited for: all of the
    step's numbers, of which one that was not started is gone."""
    if waits:
        back = awaits_gone(by, new.generation, numbers[::-1], back)
    return tells(by, tuple(Quit(new.generation, k) for k in forked), back)


def taken_back(by: int, old: Crew, new: Crew, waits: bool, step: Step, back: Tree) -> Tree:
    """A step is taken back: the old workers that quit are started again, whatever is answered, and its new ones
    quit."""
    quits = Later(lambda: quits_new(by, new, waits, step.starts, back, step.starts[::-1]))
    return starts_any(by, old, step.quits, quits)


Last = Callable[[bool, Tree], Tree]


def in_steps(
    asked: bool, first: bool, by: int, old: Crew, new: Crew, steps: tuple[Step, ...], last: Last, back: Tree
) -> Tree:
    """The steps but the last, and then the last. Where a start fails, or the operator goes back, the step's new workers
    quit, and the earlier steps are taken back, the last first. The operator is asked in the first step, when its new
    workers are ready."""
    if not steps:
        return last(first, back)
    step = steps[0]
    quit_new = partial(quits_new, by, new, not first, step.starts, back)
    taken = Later(lambda: taken_back(by, old, new, not first, step, back))
    more = in_steps(asked, False, by, old, new, steps[1:], last, taken)
    quits = tuple(Quit(old.generation, k) for k in step.quits[::-1])
    on = tells(by, quits, awaits_gone(by, old.generation, step.quits[::-1], more))
    asking = asks(asked and first, by, 1, on, Later(lambda: quit_new(step.starts[::-1])))
    return starts(by, new, step.starts, asking, quit_new)


def last_step(
    asked: bool,
    by: int,
    old: Crew,
    new: Crew,
    numbers: Numbers,
    left: Numbers,
    retries: int,
    dropped: Addresses,
    n: int,
    first: bool,
    back: Tree,
) -> Tree:
    """The last step: all new workers are counted, and it goes on."""
    quit_new = partial(quits_new, by, new, not first, numbers, back)
    all_new = Later(lambda: quit_new(numbers[::-1]))
    on = asks(asked and first, by, 1, reload_on(by, old, new, left, retries, dropped, n), all_new)
    return starts(by, new, numbers, either(by, Census(new.generation), numbers_below(n), on, all_new), quit_new)


def closes_opened(by: int, old: Crew, ready: Numbers, retries: int, opened: Addresses) -> Tree:
    return tells(by, tuple(map(CloseAt, opened)), settle(by, old, ready, Side.Old, retries))


def stepped_tree(
    asked: bool,
    by: int,
    old: Crew,
    new: Crew,
    ready: Numbers,
    retries: int,
    held: Addresses,
    wanted: Addresses,
    n: int,
    rollout: Rollout,
) -> Tree:
    """The added addresses are opened, and the new workers are started in steps."""
    last = partial(last_step, asked, by, old, new, rollout.last, rollout.left, retries, only_in(held, wanted), n)
    closes = partial(closes_opened, by, old, ready, retries)

    def start(opened: Addresses) -> Tree:
        return in_steps(asked, True, by, old, new, rollout.steps, last, closes(opened))

    return opens(by, only_in(wanted, held), (), start, closes)


def reload_plan(asked: bool, surge: int, r: Record, s: Settings) -> Tree:
    """The reload of a record to settings: whether the operator is asked, and how many new workers a step starts."""
    by, new = r.generation.image, crew_wanted(r, Reload(s))
    rollout = rollout_of(r, s, surge)
    return stepped_tree(
        asked, by, crew_of(r), new, r.ready, r.retries, addresses_of(r), s.listeners, s.workers, rollout
    )


# Stop


def has_oldbin(note: PidNote) -> bool:
    """Whether a file is at the path with the suffix."""
    return note in (PidNote.AtOldbin, PidNote.OldbinLeft)


def remove_oldbin_too(by: int, path: FilePath, has_one: bool, rest: Tree) -> Tree:
    """The file with the suffix is removed, where there is one; a fault leaves it."""
    return does(by, RemovePid(oldbin(path)), note_edges(None, PidNote.Left, rest)) if has_one else rest


def removes(by: int, path: FilePath | None, note: PidNote, rest: Tree) -> Tree:
    """The pid files are removed."""
    if path is None:
        return rest
    more = remove_oldbin_too(by, path, has_oldbin(note), rest)
    return does(by, RemovePid(path), note_edges(PidNote.NoFile, PidNote.Left, more))


def stopped(by: int) -> Tree:
    return tells(by, (Leave(),), Ends(End.Done))


def stop_tree(by: int, g: Generation, ready: Numbers, path: FilePath | None, note: PidNote, quick: bool) -> Tree:
    """The workers quit and are waited for, or are killed at once; the files are removed, and the master leaves."""
    removed = removes(by, path, note, stopped(by))
    if quick:
        return tells(by, tuple(Kill(g, k) for k in ready), removed)
    return tells(by, tuple(Quit(g, k) for k in ready[::-1]), awaits_gone(by, g, ready[::-1], removed))


# Two parts of a plan that two masters carry out side by side: under a list of turns they are an ordinary tree


def after(branch: Branch, made: Callable[[Tree], Tree]) -> Later:
    """What is made of the rest of a branch, once it is asked for."""
    return Later(lambda: made(branch.rest))


def graft(then: Callable[[End], Tree], tree: Tree) -> Tree:
    """The ends of a part are marks: each gives way to what follows it."""
    at = shown(tree)
    if isinstance(at, Ends):
        return then(at.end)
    return Does(at.by, at.order, at.set, graft_all(then, at.branches))


def graft_all(then: Callable[[End], Tree], branches: Branches) -> Branches:
    return tuple(Branch(b.replies, b.said, after(b, lambda rest: graft(then, rest))) for b in branches)


def beside(goes: Callable[[Turns, Tree], Tree], turns: Turns, old: Tree) -> Tree:
    """The old part beside a step of the new one, of which `goes` says what follows where it is the new part's turn.
    Where the old part has ended no turn is used."""
    at = shown(old)
    if isinstance(at, Ends) or not turns:
        return goes(turns, at)
    if turns[0] is Turn.New:
        return goes(turns[1:], at)
    return Does(at.by, at.order, at.set, beside_all(goes, turns[1:], at.branches))


def beside_all(goes: Callable[[Turns, Tree], Tree], turns: Turns, branches: Branches) -> Branches:
    return tuple(Branch(b.replies, b.said, after(b, lambda rest: beside(goes, turns, rest))) for b in branches)


def weave(join: Callable[[End], Tree], new: Tree, turns: Turns, old: Tree) -> Tree:
    """Both parts, the new one first, under the turns, New after their end. Where the new part has ended the old one
    goes on alone; where both have, the new part's end says what follows."""
    at = shown(new)
    if isinstance(at, Ends):
        end = at.end
        return graft(lambda _: join(end), old)
    step = at

    def goes(later: Turns, still: Tree) -> Tree:
        return Does(step.by, step.order, step.set, weave_all(join, step.branches, later, still))

    return beside(goes, turns, old)


def weave_all(join: Callable[[End], Tree], branches: Branches, turns: Turns, old: Tree) -> Branches:
    return tuple(Branch(b.replies, b.said, after(b, lambda rest: weave(join, rest, turns, old))) for b in branches)


def joined(ready: Tree, back: Tree, end: End) -> Tree:
    """The new part ends ready, or leads back."""
    return ready if end is End.JoinReady else back


# Upgrade


def tries(by: int, call: Call, numbers: Numbers, rest: Tree, back: Tree) -> Tree:
    """A step of the new master: the plain reply goes on; any other, and that the master is gone, goes back."""
    failed = on((*failed_replies(call), Reply.MasterGone), back)
    return Does(by, Make(call), numbers, on((plain_reply(call),), rest, failed))


def tries_all(by: int, calls: tuple[Call, ...], rest: Tree, back: Tree) -> Tree:
    for call in reversed(calls):
        rest = tries(by, call, (), rest, back)
    return rest


def pid_calls(path: FilePath | None, call: Callable[[FilePath], Call]) -> tuple[Call, ...]:
    return () if path is None else (call(path),)


def new_calls(crew: Crew, held: Addresses, wanted: Addresses, n: int) -> tuple[Call, ...]:
    """What the new master does on its own: it adopts, closes the dropped addresses and opens the added ones, forks its
    workers and waits for them."""
    return (
        Adopt(),
        *map(CloseAt, only_in(held, wanted)),
        *map(OpenAt, only_in(wanted, held)),
        *(fork_of(crew, k) for k in numbers_below(n)),
        *(AwaitReady(crew.generation, k) for k in numbers_below(n)),
    )


def new_part(crew: Crew, held: Addresses, wanted: Addresses, n: int) -> Tree:
    """The new master's part is ready after the last of these calls; any other answer than the plain one ends it."""
    calls = new_calls(crew, held, wanted, n)
    return tries_all(crew.generation.image, calls, Ends(End.JoinReady), Ends(End.JoinBack))


def old_part(by: int, crew: Crew, ready: Numbers, rounds: int) -> Tree:
    """The old master meanwhile mends its own workers: it counts those that were ready, and starts what is lacking, in
    a number of rounds. What the last count says does not matter."""
    if rounds == 0:
        return Does(by, Make(Census(crew.generation)), ready, on((Reply.Full, Reply.Short), Ends(End.Join)))
    again = round_of(by, crew, old_part(by, crew, ready, rounds - 1))
    return either(by, Census(crew.generation), ready, Ends(End.Join), again)


def move_aside(by: int, path: FilePath | None, note: PidNote, ok: Tree, bad: Tree) -> Tree:
    """The pid file goes aside, where it isn't yet."""
    if path is None or note is PidNote.AtOldbin:
        return ok
    return either(by, MovePid(path, oldbin(path)), (), ok, bad)


def move_back(by: int, path: FilePath | None, rest: Tree) -> Tree:
    """The pid file goes back to its path."""
    if path is None:
        return rest
    return does(by, MovePid(oldbin(path), path), note_edges(PidNote.InPlace, PidNote.AtOldbin, rest))


def remove_oldbin(by: int, path: FilePath | None, rest: Tree) -> Tree:
    """The file with the suffix goes."""
    if path is None:
        return rest
    return does(by, RemovePid(oldbin(path)), note_edges(PidNote.InPlace, PidNote.OldbinLeft, rest))


def back_alone(by: int, crew: Crew, ready: Numbers, retries: int, path: FilePath | None) -> Tree:
    """Back without a new master."""
    return move_back(by, path, settle(by, crew, ready, Side.Old, retries))


def back_from(by: int, heir: int, crew: Crew, ready: Numbers, retries: int, path: FilePath | None) -> Tree:
    """And with one."""
    return tells(by, (TermMaster(heir),), back_alone(by, crew, ready, retries, path))


def back_late(by: int, heir: int, crew: Crew, ready: Numbers, retries: int, path: FilePath | None) -> Tree:
    """Back after the old workers are gone: they are started again."""
    again = starts_any(by, crew, ready, back_alone(by, crew, ready, retries, path))
    return tells(by, (TermMaster(heir),), again)


def back_serving(by: int, heir: int, crew: Crew, ready: Numbers, retries: int, path: FilePath | None) -> Tree:
    """Back once the old workers are gone: they are started again while the new master still serves, and only then is
    it ended."""
    return starts_any(by, crew, ready, back_from(by, heir, crew, ready, retries, path))


def hand_over(by: int, new: Crew, retries: int, path: FilePath | None, n: int) -> Tree:
    """The old master leaves; the new one removes the old file and settles."""
    heir = new.generation.image
    settled = settle(heir, new, numbers_below(n), Side.Target, retries)
    return tells(by, (Leave(),), remove_oldbin(heir, path, settled))


def retire(by: int, old: Crew, new: Crew, ready: Numbers, retries: int, path: FilePath | None, n: int) -> Tree:
    """If the new master still lives, the old one leaves."""
    heir = new.generation.image
    handed = hand_over(by, new, retries, path, n)
    return either(by, Alive(heir), (), handed, back_late(by, heir, old, ready, retries, path))


def relieve(
    attended: bool, by: int, old: Crew, new: Crew, ready: Numbers, retries: int, path: FilePath | None, n: int
) -> Tree:
    """The old workers quit and are waited for; then the old master retires. An attended upgrade asks before they quit
    and once they are gone."""
    heir = new.generation.image
    retired = retire(by, old, new, ready, retries, path, n)
    second = asks(attended, by, 2, retired, back_serving(by, heir, old, ready, retries, path))
    quits = tuple(Quit(old.generation, k) for k in ready[::-1])
    gone = tells(by, quits, awaits_gone(by, old.generation, ready[::-1], second))
    return asks(attended, by, 1, gone, back_from(by, heir, old, ready, retries, path))


def taken_over(
    attended: bool,
    by: int,
    old: Crew,
    new: Crew,
    ready: Numbers,
    retries: int,
    path: FilePath | None,
    n: int,
    back: Tree,
) -> Tree:
    """Both parts have ended and the new master is ready: it writes its pid, and is counted."""
    heir = new.generation.image
    relieved = relieve(attended, by, old, new, ready, retries, path, n)
    counted = tries(heir, Census(new.generation), numbers_below(n), relieved, back)
    return tries_all(heir, pid_calls(path, WritePid), counted, back)


def upgrade_tree(attended: bool, r: Record, new: Crew, wanted: Addresses, n: int, turns: Turns) -> Tree:
    """(The values of the record are named one by one in the definitions.)"""
    by, old, heir = r.generation.image, crew_of(r), new.generation.image
    back = back_from(by, heir, old, r.ready, r.retries, r.pid_path)
    ready = taken_over(attended, by, old, new, r.ready, r.retries, r.pid_path, n, back)
    parts = weave(
        partial(joined, ready, back),
        new_part(new, addresses_of(r), wanted, n),
        turns,
        old_part(by, old, r.ready, r.retries),
    )
    spawn = either(by, SpawnMaster(heir), (), parts, back_alone(by, old, r.ready, r.retries, r.pid_path))
    return move_aside(by, r.pid_path, r.note, spawn, settle(by, old, r.ready, Side.Old, r.retries))


# The plan of a target


def plan_tree(r: Record, target: Target, turns: Turns) -> Tree:
    """Turns are used in upgrades alone, attended or not."""
    by, crew = r.generation.image, crew_of(r)
    match target:
        case Workers(n):
            return workers_tree(by, crew, r.ready, r.retries, n)
        case Mend(overdue):
            return mend_tree(by, crew, r.ready, r.retries, overdue, r.wanted)
        case Reopen():
            return reopen_tree(by, crew, r.ready, r.retries)
        case Reload(s):
            return reload_plan(False, s.surge, r, s)
        case Upgrade(s):
            return upgrade_tree(False, r, crew_wanted(r, target), s.listeners, s.workers, turns)
        case Attended(s):
            return upgrade_tree(True, r, crew_wanted(r, target), s.listeners, s.workers, turns)
        case Stop(quick):
            return stop_tree(by, r.generation, r.ready, r.pid_path, r.note, quick)

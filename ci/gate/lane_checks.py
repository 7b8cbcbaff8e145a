"""Checks of how scripts run side by side, on scripts that are made up."""
import pathlib
import tempfile
import threading
import time
from collections.abc import Callable, Iterator

from gate.scripts import COMPUTING, EXPECTED, FIRST, MOST_AGAIN, SCRIPTS, WAITING, WITHOUT_PROGRAM, Scripts, lanes
from gate.waiting import comes

PROCESSORS = (1, 2, 4, 8)
# A script that notes when it begins and when it ends.
NOTES = '#!/bin/sh\nname=${0##*/}\necho "begins $name" >> "$1"\nsleep 0.05\necho "ends $name" >> "$1"\n'
# What one of two scripts does that run side by side: it waits until the other has begun, too.
WAITS = 'count=0\nuntil grep -q "begins {}" "$1" || [ $count = 3000 ]; do sleep 0.02; count=$((count + 1)); done\n'
PASSES = 'echo "1 passed, 0 failed"\n'
FAILS = 'echo "what is wrong"\necho "1 passed, 2 failed"\nexit 1\n'
BREAKS_OFF = "exit 1\n"
# One that starts a process in a session of its own, and waits for it.
LASTS = '#!/bin/sh\nsetsid sleep 1000 &\necho "begins lasting" >> "$1"\nwait\n'


class Crowded(Scripts):
    """Scripts beside proofs that leave them no room."""

    def wait_for_room(self, latest: threading.Event) -> None:
        latest.wait()


class Roomy(Scripts):
    """Scripts beside proofs that leave them room."""

    def wait_for_room(self, latest: threading.Event) -> None:
        pass


def put(path: pathlib.Path, text: str) -> None:
    path.write_text(text)
    path.chmod(0o755)


def laid_out(room: pathlib.Path, processors: int, kind: type[Scripts] = Crowded, **others: str) -> Scripts:
    """A run of scripts that pass, but for these others. They note in the file `notes`, in the place of the program."""
    for name in SCRIPTS:
        put(room / name, others.get(name, NOTES + PASSES))
    return kind(room, room / "notes", lambda line: None, processors)


def each_is_in_a_lane(room: pathlib.Path) -> Iterator[str]:
    for processors in PROCESSORS:
        names = [name for lane in lanes(processors) for name in lane.left]
        if sorted([*names, *FIRST, *WITHOUT_PROGRAM]) != sorted(SCRIPTS):
            yield f"the lanes of {processors} processors have {names}"


def most_at_a_time(notes: list[list[str]]) -> int:
    """How many scripts ran side by side, at most."""
    count = most = 0
    for what, _ in notes:
        count += 1 if what == "begins" else -1
        most = max(most, count)
    return most


def waiting_for(name: str) -> str:
    return NOTES.replace("sleep 0.05\n", WAITS.format(name)) + PASSES


def run_side_by_side(room: pathlib.Path) -> Iterator[str]:
    """On eight processors three run at a time, on two and four two, on one one, and `json` before what computes."""
    for processors, wanted in ((1, 1), (2, 2), (4, 2), (8, 3)):
        # The first of both lanes, which a busy machine may otherwise begin one after the other.
        beside = {"adapters": waiting_for("cases"), "cases": waiting_for("adapters")} if wanted > 1 else {}
        scripts = laid_out(room, processors, Crowded, **beside)
        with scripts:
            scripts.begin()
            scripts.run()
        notes = [line.split() for line in (room / "notes").read_text().splitlines() if "selftest" not in line]
        (room / "notes").unlink()
        most = most_at_a_time(notes)
        if not min(2, wanted) <= most <= wanted:
            yield f"{most} scripts run side by side on {processors} processors: {notes}"
        before = notes[:notes.index(["ends", "json"])]
        if any(["begins", name] in before for name in COMPUTING):
            yield f"json does not run before what computes: {notes}"
        if scripts.counted != dict.fromkeys(SCRIPTS, (1, 0)) or scripts.wrong():
            yield f"{scripts.counted}, {scripts.wrong()}"


def begin_with_what_waits(room: pathlib.Path) -> Iterator[str]:
    """Once the program is proved what waits begins, and what needs no program; the rest begins once all is proved. On
    one processor what waits is part of the rest. No proof leaves room before."""
    for processors in PROCESSORS:
        scripts, wanted = laid_out(room, processors), {*WITHOUT_PROGRAM, *(WAITING if processors > 1 else ())}
        with scripts:
            scripts.begin()
            time.sleep(0.1)
            if scripts.counted:
                yield f"on {processors} processors {sorted(scripts.counted)} run before the program is proved"
            scripts.program_is_proved()
            if not comes(lambda: wanted <= set(scripts.counted)):
                yield f"on {processors} processors {sorted(scripts.counted)} run beside proofs, not {sorted(wanted)}"
            time.sleep(0.2)
            if not set(scripts.counted) <= wanted:
                yield f"on {processors} processors {sorted(scripts.counted)} run before all is proved"
            scripts.all_is_proved()
            scripts.run()
        if scripts.counted != dict.fromkeys(SCRIPTS, (1, 0)):
            yield f"on {processors} processors: {scripts.counted}"


def begin_where_there_is_room(room: pathlib.Path) -> Iterator[str]:
    """All begin beside the proofs where these leave them room, once the program is proved."""
    for processors in PROCESSORS:
        scripts = laid_out(room, processors, Roomy)
        with scripts:
            scripts.begin()
            time.sleep(0.2)
            if not set(scripts.counted) <= set(WITHOUT_PROGRAM):
                yield f"on {processors} processors {sorted(scripts.counted)} run before the program is proved"
            scripts.program_is_proved()
            if not comes(lambda: set(scripts.counted) == set(SCRIPTS)):
                yield f"on {processors} processors {sorted(scripts.counted)} run beside proofs, and not all"
            scripts.run()
        if scripts.counted != dict.fromkeys(SCRIPTS, (1, 0)):
            yield f"on {processors} processors: {scripts.counted}"


def tell_what_failed(room: pathlib.Path) -> Iterator[str]:
    """What failed is told in the order of the scripts, and counted as each says."""
    scripts = laid_out(room, 4, documents=NOTES + FAILS, adapters=NOTES + BREAKS_OFF, cases=NOTES + FAILS)
    (room / "pictures").unlink()
    with scripts:
        scripts.begin()
        scripts.run()
    failed = {name: counted for name, counted in scripts.counted.items() if counted[1]}
    if failed != {"cases": (1, 2), "pictures": (0, 1), "adapters": (0, 1), "documents": (1, 2)}:
        yield f"counted as failed: {failed}"
    told = [line.partition(": ")[0] for line in scripts.wrong()]
    if list(dict.fromkeys(told)) != ["cases", "pictures", "adapters", "documents"]:
        yield f"told in the order {told}"
    if "documents: what is wrong" not in scripts.wrong():
        yield f"told: {scripts.wrong()}"
    scripts.failed["documents"] = [*map(str, range(200)), "failed: the last one", "0 passed, 1 failed"]
    if len(found := scripts.wrong()) > 2 * MOST_AGAIN or "documents: failed: the last one" not in found:
        yield f"told of a script that says much: {found}"


def miss_lost_checks(room: pathlib.Path) -> Iterator[str]:
    """A script that makes fewer checks than are expected of it has failed."""
    (room / EXPECTED).write_text("# the fewest\ncases 1\njson 2\n")
    scripts = laid_out(room, 4)
    with scripts:
        scripts.begin()
        scripts.run()
    failed = {name: counted for name, counted in scripts.counted.items() if counted[1]}
    if failed != {"json": (1, 1)} or "json: 1 checks, and 2" not in " ".join(scripts.wrong()):
        yield f"a lost check: {failed}, {scripts.wrong()}"


def leave_none_behind(room: pathlib.Path) -> Iterator[str]:
    """A run that is broken off ends its scripts and what they started, and begins no more of them."""
    scripts = laid_out(room, 4, adapters=LASTS, cases=LASTS)
    try:
        with scripts:
            scripts.all_is_proved()
            if not comes(lambda: (room / "notes").exists() and (room / "notes").read_text().count("lasting") == 2):
                yield "the scripts do not begin"
            raise KeyboardInterrupt
    except KeyboardInterrupt:
        pass
    if scripts.mark.processes():
        yield f"processes are left: {scripts.mark.processes()}"
    noted = (room / "notes").read_text()
    time.sleep(0.3)
    if (room / "notes").read_text() != noted:
        yield "scripts go on"


def leave_out_the_rest(room: pathlib.Path) -> Iterator[str]:
    """Where not all is proved, no script runs, and each counts as failed."""
    scripts = laid_out(room, 4)
    with scripts:
        scripts.leave_out()
    if scripts.counted != dict.fromkeys(SCRIPTS, (0, 1)) or (room / "notes").exists():
        yield f"{scripts.counted}"
    scripts = laid_out(room, 4)
    with scripts:
        scripts.program_is_proved()
        comes(lambda: set(WAITING) <= set(scripts.counted))
        scripts.leave_out()
    if scripts.counted != {name: (1, 0) if name in WAITING else (0, 1) for name in SCRIPTS}:
        yield f"where what waits has run: {scripts.counted}"


CHECKS: tuple[Callable[[pathlib.Path], Iterator[str]], ...] = (
    each_is_in_a_lane, run_side_by_side, begin_with_what_waits, begin_where_there_is_room, tell_what_failed,
    miss_lost_checks, leave_none_behind, leave_out_the_rest,
)


def faults(check: Callable[[pathlib.Path], Iterator[str]]) -> list[str]:
    """What a check finds wrong."""
    with tempfile.TemporaryDirectory(prefix="prefork-lanes-") as folder:
        return [f"scripts {check.__name__}: {fault}" for fault in check(pathlib.Path(folder))]

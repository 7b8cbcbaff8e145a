"""Cases with growths of memory, reads and writes of the master refused, and with their input cut."""
import itertools
import re
import tempfile

from gate.tally import Tally
from masters.runs import Case, Program, Run

# Where a case is run with its growths, reads and writes refused, and with its input cut.
HOSTILE = (
    "defaults_a_tick_and_a_stop", "a_new_master", "an_attended_upgrade",
    "an_attended_upgrade_that_goes_back_at_the_second_question", "an_attended_upgrade_with_lines_of_5000_bytes",
)
# How many runs of one case, with refused growths, go on side by side.
STEP = 4
# The longest input that is cut at each byte.
CUT_BYTES = 100


def refusals(program: Program, case: Case, kind: str, fault: bytes, first: int = 1, step: int = 1) -> Tally:
    """A check of a case for each growth, read or write of its master that is refused, from the first on in steps."""
    tally = Tally()
    for number in itertools.count(first, step):
        found = []
        with tempfile.TemporaryDirectory() as room:
            case.lay_out(room)
            ended, is_met = program.refused(f"{kind}{number}", case.arguments, case.given, room)
            if ended.left:
                found.append(f"{case.name}: {kind}{number} leaves processes {ended.left}")
            if not is_met:
                # (all that the run asks for was granted)
                if ended != case.wanted_in(room):
                    found.append(f"{case.name}: {kind}{number} is not met in {ended.status}, {ended.output!r}")
                tally.check(found)
                break
            if not may_be(program, case, ended, fault, room):
                found.append(f"{case.name}: {kind}{number} gives {ended.status}, {ended.output!r}, {ended.errors!r}")
        tally.check(found)
    return tally


def may_be(program: Program, case: Case, ended: Run, fault: bytes, room: str) -> bool:
    """Whether a run with a refusal is one that can be: it ends with the fault, or a call was answered so that memory
    or a pipe was lacking, and the plan went its way: then its files are where its last report says. In both cases the
    blocks that it wrote are accepted, up to one that is lost: a new master that reigns and can't be heard."""
    known = before_loss(ended.output)
    placed = known != ended.output or case.beside(room) == noted(ended.output)
    went = ended.status == gravest(ended.output) and not ended.errors and placed
    named = ended.status == 1 and ended.errors == fault
    return (went or named) and program.certified(case.start, known, room).returncode == 0


def gravest(blocks: bytes) -> int:
    """The exit status of a master that wrote these blocks."""
    for status, ends in ((1, rb"refused|unread|lost"), (4, rb"degraded"), (3, rb"rolled-back")):
        if re.search(rb"^(" + ends + rb") ", blocks, re.M):
            return status
    return 0


def noted(blocks: bytes) -> list[str]:
    """The files of a master, a.pid, by its last report."""
    notes = re.findall(rb" pid (\S+)$", blocks, re.M)
    files = {b"in-place": ["a.pid"], b"at-oldbin": ["a.pid.oldbin"], b"oldbin-left": ["a.pid", "a.pid.oldbin"]}
    return files.get(notes[-1], []) if notes else []


def before_loss(blocks: bytes) -> bytes:
    """The blocks before the first that is lost."""
    lost = re.search(rb"^lost ", blocks, re.M)
    return blocks[: blocks.rindex(b"word ", 0, lost.start())] if lost else blocks


def cut(program: Program, case: Case) -> Tally:
    """A check for each byte at which a master's input ends: it stops gracefully, and says what it could not read."""
    tally = Tally()
    for size in range(len(case.given)):
        with tempfile.TemporaryDirectory() as room:
            case.lay_out(room)
            ended = program.run(case.arguments, case.given[:size], room)
            said = program.certified(case.start, ended.output, room)
            stopped = ended.status == gravest(ended.output) and not ended.errors and not ended.left
            ends_well = b"word QUIT\n" in ended.output and not re.search(rb"^(degraded|lost) ", ended.output, re.M)
            is_wrong = not stopped or not ends_well or said.returncode != 0 or case.beside(room)
            seen = f"{ended.status}, {ended.output!r}, {ended.errors!r}, {said.stderr!r}"
            tally.check([f"{case.name}, cut at {size}: {seen}"] if is_wrong else [])
    return tally

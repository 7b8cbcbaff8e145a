"""Processes of a service, as the system tells of them."""
from collections.abc import Collection

# A flag of the system: a process is about to end. And more than the system says of a process in one line.
PF_EXITING, MOST_LINE_BYTES = 4, 4096
# What passes on lines between masters, or is the deputy of one.
RELAY = "/prefork-launch"


def line_of(path: str) -> str:
    """What a short file of the system says, by few calls: a status reads hundreds. The name of a process may be no text."""
    with open(path, "rb", 0) as file:
        return file.read(MOST_LINE_BYTES).decode(errors="replace")


def fields_of(process: int) -> list[str]:
    """What the system says of a process after its name; nothing if it has ended, or can't be asked for."""
    try:
        return read_fields(process)
    except OSError:
        return []


def read_fields(process: int) -> list[str]:
    """The same. Raises OSError if the system can't be asked just now, where descriptors have run out, say."""
    try:
        return line_of(f"/proc/{process}/stat").rpartition(")")[2].split()
    except (FileNotFoundError, ProcessLookupError):
        return []


def is_ending(process: int) -> bool:
    """Whether a process has ended, or is about to: a moment before that it has let go what it held."""
    fields = fields_of(process)
    return not fields or fields[0] in "ZX" or bool(int(fields[6]) & PF_EXITING)


def descends(process: int, ancestor: int, known: set[int] | None = None) -> bool:
    """Whether a process runs that this one has started, or one that it has started. Those that were seen to are added to those
    that are known to. Raises OSError if the system can't be asked."""
    passed = set[int]()
    while process > 1:
        fields = read_fields(process)
        if not fields or fields[0] == "Z":
            return False
        passed.add(process)
        process = int(fields[1])
        if process == ancestor or known and process in known:
            if known is not None:
                known |= passed
            return True
    return False


def masters_of(first: int, workers: Collection[int] = ()) -> list[int]:
    """The master that the service has started, and those of upgrades that run, oldest first. A relay has started these, or
    the master before; the deputy of one is not counted. `workers` are processes that are known to be none."""
    found, waiting = [first], [first]
    while waiting:
        adopting = [child for child in children_of(waiting.pop(0)) if child not in workers and words_of(child)[1:2] == ["adopt"]]
        found += [child for child in adopting if not words_of(child)[0].endswith(RELAY)]
        waiting += adopting
    return found


def words_of(process: int) -> list[str]:
    """The words by which a process was started; those after some thousand bytes may be missing."""
    try:
        return line_of(f"/proc/{process}/cmdline").split("\0")
    except OSError:
        return [""]


def children_of(process: int) -> list[int]:
    try:
        with open(f"/proc/{process}/task/{process}/children", "rb", 0) as file:
            return [int(word) for word in file.readall().split()]
    except OSError:
        return []

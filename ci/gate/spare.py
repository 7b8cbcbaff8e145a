"""What the processors leave unused, and what waits for them, by /proc/stat."""
import os
import time

# Places in a processor's line: what ran at a niceness, and so gives way; what was idle; and what waited for a disk.
SPARE = (1, 3, 4)
# This number of values of a line add up to its whole time: the later ones are in the first two already.
WHOLE = 8


# How often what runs is counted in a second.
LOOKS = 20


def rows() -> list[list[str]]:
    with open("/proc/stat", encoding="ascii") as file:
        return [line.split() for line in file]


def times() -> dict[str, list[int]]:
    """The times of each processor that this process may use."""
    mine = {f"cpu{number}" for number in os.sched_getaffinity(0)}
    return {row[0]: [int(word) for word in row[1 : WHOLE + 1]] for row in rows() if row[0] in mine}


def spare(seconds: float) -> float:
    """How many processors are spare in the next seconds: idle, or used by what gives way."""
    before = times()
    time.sleep(seconds)
    return sum(part(before[name], now) for name, now in times().items() if name in before)


def part(before: list[int], now: list[int]) -> float:
    """Which part of the time between was spare."""
    passed = [later - earlier for earlier, later in zip(before, now)]
    return sum(passed[place] for place in SPARE) / max(1, sum(passed))


def waiting(seconds: float) -> float:
    """How many threads wait for a processor in the next seconds, on the average: all that run or could, less one on
    each processor, and less the one that looks."""
    counts = []
    for _ in range(max(1, round(LOOKS * seconds))):
        time.sleep(1 / LOOKS)
        found = rows()
        there = sum(row[0].startswith("cpu") and row[0] != "cpu" for row in found)
        counts.append(next(int(row[1]) for row in found if row[0] == "procs_running") - 1 - there)
    return sum(counts) / len(counts)

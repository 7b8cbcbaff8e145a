"""A worker that obeys but for one line, and the blocks of its master."""

from gate.configs import configuration
from masters.runs import Case, Run

STAGES = ("go", "ping", "tick", "quit")
WAYS = ("exits", "closes", "says", "shouts", "hangs", "stops")
# Those that are ended by a limit alone, and the limits in seconds, for an answer and for readiness: short where nothing
# comes, and elsewhere longer than a busy machine may halt.
SILENT = ("hangs", "stops")
LIMITS = {"go": (60, 1), "ping": (1, 60), "tick": (10, 60), "quit": (60, 8)}
WORKER = """\
# A worker that obeys, but for one line: sh worker.sh WAY LINE
exec 2>/dev/null
way=$1 line=$2
while read -r word rest; do
    if [ "$word" = "$line" ]; then
        case $way in
            exits) exit 3 ;;
            closes) exec >&- ;;
            says) echo what ;;
            shouts) printf '%05000d\\n' 0 ;;
            hangs) ;;
            stops) kill -STOP $$ ;;
        esac
        continue
    fi
    case $word in
        worker) start=${rest##* } ;;
        go) echo ready ;;
        ping) echo pong ;;
        tick) echo "beat $rest $start" ;;
        quit) echo gone; exit 0 ;;
    esac
done
"""


def block(word: str, *parts: str) -> str:
    return "\n".join([f"word {word}", *parts, ""])


STARTED = block(
    "tick 0", "1 m1 fork 1.1 0 : forked", "2 m1 await-ready 1.1 0 : ready", "3 m1 census 1.1 : counted 0",
    "done cause none pid no-file",
)
BEATEN = block("beat 0 1", "nothing")
COUNTED = block("tick 1", "1 m1 census 1.1 : counted 0", "done cause none pid no-file")
STOPPED = block(
    "QUIT", "1 m1 quit 1.1 0 : ok", "2 m1 await-gone 1.1 0 : gone", "3 m1 leave : ok", "done cause none pid no-file"
)
EMPTY = block("QUIT", "1 m1 leave : ok", "done cause none pid no-file")


def outcome(way: str, stage: str) -> tuple[list[str], int, list[str]]:
    """The blocks, the exit status and the patterns of a master with one worker that misbehaves, and no further try."""
    ends = way in ("exits", "closes", *SILENT)
    if stage == "go":
        told = ["2 m1 await-ready 1.1 0 : gone"] if ends else ["2 m1 await-ready 1.1 0 : late", "3 m1 kill 1.1 0 : ok"]
        census = f"{len(told) + 2} m1 census 1.1 : counted none"
        start = block("tick 0", "1 m1 fork 1.1 0 : forked", *told, census, "degraded target 1 cause 2 pid no-file")
        pattern = "2 exit w1.1.0" if ends else "2 fail late"
        return [start, EMPTY], 4, [pattern, ""]
    if stage == "ping":
        start = block(
            "tick 0", "1 m1 fork 1.1 0 : forked", "2 m1 await-ready 1.1 0 : ready", "3 m1 census 1.1 : counted none",
            "degraded target 1 cause 3 pid no-file",
        )
        return [start, EMPTY], 4, ["3 exit w1.1.0", ""]
    if stage == "tick" and ends:
        gone = block("tick 1", "1 m1 census 1.1 : counted none", "degraded target 1 cause 1 pid no-file")
        return [STARTED, gone, EMPTY], 4, ["", "1 exit w1.1.0", ""]
    if stage == "tick":
        return [STARTED, COUNTED, STOPPED], 0, ["", "", ""]
    if ends:
        return [STARTED, BEATEN, COUNTED, STOPPED], 0, ["", "", "", ""]
    late = block(
        "QUIT", "1 m1 quit 1.1 0 : ok", "2 m1 await-gone 1.1 0 : late", "3 m1 kill 1.1 0 : ok", "4 m1 leave : ok",
        "done cause 2 pid no-file",
    )
    return [STARTED, BEATEN, COUNTED, late], 0, ["", "", "", "2 fail late"]


def options_of(limits: tuple[int, int]) -> list[str]:
    answer, ready = limits
    return ["--answer-within", str(answer), "--ready-within", str(ready)]


def misbehaving(way: str, stage: str) -> Case:
    """A case with a worker that misbehaves."""
    blocks, status, patterns = outcome(way, stage)
    words = "QUIT\n" if stage in ("go", "ping") else "tick 1\nQUIT\n"
    settings = configuration(workers=1, retries=0, command=["sh", "worker.sh", way, stage])
    text = "next\n".join(f"{pattern}\n" if pattern else "" for pattern in patterns)
    limits = [word.encode() for word in options_of(LIMITS[stage]) if way in SILENT]
    return Case(
        f"a worker that {way} at {stage}",
        [b"supervise", b"--program", b"PROGRAM", b"--from", b"s.toml", *limits], words.encode(),
        Run(status, "".join(blocks).encode(), b"", []), [b"--from", b"s.toml"], text.encode(),
        {"s.toml": settings.encode(), "worker.sh": WORKER.encode()},
    )

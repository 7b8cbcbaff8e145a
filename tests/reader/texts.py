"""The texts that the program reads and writes: configurations, patterns, blocks and tables, from docs/FORMATS.md."""
import json

from reader import names as name
from reader.names import Name
from reader.numbers import Numbers
from reader.plans import Turns
from reader.run import Moment
from reader.settings import Settings
from reader.table import Foreign, Holds, Master, Process, Table, holds_of, service
from reader.vocabulary import (
    Adopt, Alive, AnyAnswer, AnyOutcome, Ask, AwaitGone, AwaitReady, Call, Census, CloseAt, Counted, Degraded, Entries,
    Entry, Fork, Generation, Kill, Leave, MovePid, OpenAt, Opened, Quit, RemovePid, Report, SpawnMaster, TermMaster,
    Usr1, WritePid,
)

Moments = dict[int, Moment]


def generation_text(g: Generation) -> str:
    return f"{g.image}.{g.config}"


def run_text(first: int, last: int) -> str:
    return f"{first}" if first == last else f"{first}-{last}"


def set_text(numbers: Numbers) -> str:
    """The longest runs, ascending; none if the set is empty."""
    runs: list[tuple[int, int]] = []
    for n in numbers:
        if runs and runs[-1][1] + 1 == n:
            runs[-1] = runs[-1][0], n
        else:
            runs.append((n, n))
    return ",".join(run_text(*run) for run in runs) or "none"


# What is read


def group_table(addresses: tuple[str, ...], workers: int) -> str:
    return f"listeners = {json.dumps(list(addresses))}\nworkers = {workers}\n"


def configuration_text(s: Settings) -> str:
    """The file of these settings; one group alone is no table."""
    text = f"retries = {s.retries}\nsurge = {s.surge}\ntimeout = {s.timeout}\n" + (f'pid = "{s.pid}"\n' if s.pid else "")
    if len(s.groups) == 1:
        return text + group_table(s.listeners, s.workers)
    left = s.listeners
    for group in s.groups:
        text += "[[groups]]\n" + group_table(left[:group.addresses], group.workers)
        left = left[group.addresses:]
    return text


def name_text(e: Name) -> str:
    match e:
        case name.Worker(g, k):
            return f"w{generation_text(g)}.{k}"
        case name.Draining(g, k):
            return f"d{generation_text(g)}.{k}"
        case name.Master(image):
            return f"m{image}"


def section_text(turns: Turns, moments: Moments) -> str:
    """The turns and the pattern of a word."""
    lines = ["turns " + "".join(turn.value for turn in turns)] if turns else []
    for n, moment in sorted(moments.items()):
        lines += [f"{n} exit {name_text(e)}" for e in moment.exits]
        lines += [f"{n} fail {moment.fate.value}"] if moment.fate else []
    return "".join(line + "\n" for line in lines)


# What is written


def worker_text(g: Generation, k: int) -> str:
    return f"{generation_text(g)} {k}"


WORDS: dict[type, str] = {
    AwaitReady: "await-ready", Quit: "quit", Kill: "kill", AwaitGone: "await-gone", Usr1: "usr1", OpenAt: "open",
    CloseAt: "close", SpawnMaster: "spawn-master", Alive: "alive", TermMaster: "term-master", WritePid: "write-pid",
    RemovePid: "remove-pid", Adopt: "adopt", Leave: "leave", Ask: "ask", Census: "census", MovePid: "move-pid",
    Fork: "fork",
}


def call_text(call: Call) -> str:
    word = WORDS[type(call)]
    match call:
        case Adopt() | Leave():
            return word
        case OpenAt(item) | CloseAt(item) | WritePid(item) | RemovePid(item):
            return f"{word} {item}"
        case SpawnMaster(number) | Alive(number) | TermMaster(number) | Ask(number):
            return f"{word} {number}"
        case Census(g):
            return f"{word} {generation_text(g)}"
        case MovePid(source, to):
            return f"{word} {source} {to}"
        case Fork(g, k, fds):
            return f"{word} {worker_text(g, k)}" + ("" if fds is None else f" fds {set_text(fds)}")
        case _:
            return f"{word} {worker_text(call.generation, call.nr)}"


def answer_text(a: AnyAnswer) -> str:
    if isinstance(a, Counted):
        return f"counted {set_text(a.numbers)}"
    return f"opened {a.fd}" if isinstance(a, Opened) else a.value


def entry_line(n: int, e: Entry) -> str:
    return f"{n} m{e.by} {call_text(e.call)} : {answer_text(e.answer)}\n"


def outcome_text(outcome: AnyOutcome) -> str:
    if isinstance(outcome, Degraded):
        return f"degraded {outcome.side.value} {','.join(map(str, outcome.shortfalls))}"
    return outcome.value


def report_line(report: Report) -> str:
    cause = "none" if report.cause is None else report.cause
    return f"{outcome_text(report.outcome)} cause {cause} pid {report.note.value}\n"


def block_text(entries: Entries, report: Report) -> str:
    return "".join(entry_line(n, e) for n, e in enumerate(entries, 1)) + report_line(report)


def who_text(p: Process) -> str:
    if isinstance(p, Master):
        return f"parent {p.parent} m{p.image} {'live' if p.live else 'exited'}"
    if isinstance(p, Foreign):
        return "parent 1 foreign live"
    return f"parent {p.parent} w{generation_text(p.generation)}.{p.nr} {p.stance.value}"


def holds_text(hs: Holds) -> str:
    return ",".join(f"{h.fd}={h.address}" for h in hs) or "none"


def service_lines(t: Table) -> str:
    lines = ""
    for a, counts in sorted(service(t).items()):
        told = " ".join(f"{generation_text(g)}={count}" for g, count in sorted(counts.items()))
        lines += f"service {a} {told or 'none'}\n"
    return lines


def table_text(t: Table) -> str:
    """Processes, files and the service."""
    processes = "".join(f"process {p.number} {who_text(p)} fds {holds_text(holds_of(p))}\n" for p in t.rows)
    files = "".join(f"file {f.path} {f.owner}\n" for f in sorted(t.files))
    return processes + files + service_lines(t)

"""The page of a service, from top to bottom as an operator reads: how it is, in a colour, a word and a sentence; what to
type, if it asks; the workers of each generation; where the present word is; the last words; and then queues and numbers."""
import pathlib
import shlex
from collections.abc import Sequence

from . import live
from .done import Done
from .look import LOOK
from .page import drawn, masters_list, said, text, workers_table
from .questions import WHO_SERVES, told_of
from .sentences import newest, on_its_way, sentence
from .forms import Status
from .state import IN_CHANGE, SERVES, SHORT, STOPPED
from .stations import shown_stations
from .status import shown_doing, shown_requests, workers
from .words import START

# The cells of a generation that are drawn.
MOST_CELLS = 256
STYLE = LOOK + """body { font: 15px/1.5 system-ui, sans-serif; margin: 0 auto; max-width: 70rem; padding: 1rem }
section, main > details { padding: .7rem; margin-top: .8rem }
h1 { font-size: 1.4rem; margin: 0 } h2 { font-size: 1.05rem; margin: 0 0 .3rem } p { margin: .2rem 0 }
.count, .state { color: var(--soft) } .state.short { color: var(--ink) } code, pre { font: .87rem/1.5 ui-monospace, monospace; overflow-wrap: anywhere }
pre { background: var(--ground); padding: .6rem; overflow-x: auto; white-space: pre-wrap; margin: .2rem 0 }
.band { border-left: .5rem solid var(--good) } .band strong { color: var(--good) }
.band.changes { border-color: var(--warn) } .band.changes strong { color: var(--warn) }
.band.short, .band.stopped { border-color: var(--bad) } .band.short strong, .band.stopped strong { color: var(--bad) }
.question { border-left: .5rem solid var(--accent) }
.bar { display: flex; flex-wrap: wrap; gap: 3px; align-items: center; margin: .3rem 0 }
.bar b { font-weight: 600; min-width: 9rem } .bar span { margin-left: 4px } i.cell { width: 16px; height: 20px; border-radius: 3px }
i.leaves { border-style: dotted; opacity: .75 }
.bar i.missing { border: 2px dashed var(--bad) } .bar i.ended { border-color: var(--bad) }
.stations { display: flex; flex-wrap: wrap; gap: .3rem; list-style: none; margin: 0; padding: 0 }
.stations li { border: 1px solid var(--edge); border-radius: 1rem; padding: .05rem .7rem; color: var(--soft) }
.stations li.done { color: var(--good); border-color: var(--good) }
.stations li.now { color: var(--ink); border: 2px solid var(--accent); font-weight: 600 }
.words { list-style: none; margin: 0; padding: 0 } .words li { border-left: 4px solid var(--edge); padding-left: .6rem; margin: .5rem 0 }
.words li.done { border-color: var(--good) } .words li.rolled-back { border-color: var(--warn) }
.words li.degraded, .words li.refused, .words li.lost { border-color: var(--bad) } .words .why { color: var(--bad) }
.calls { display: flex; flex-wrap: wrap; gap: 2px; margin: .2rem 0 } .calls i { width: 8px; height: 14px; background: var(--edge); border: 0 }
.calls i.wrong { background: var(--bad) } .calls i.cause { outline: 2px solid var(--ink) }
.scroll { overflow-x: auto } table { border-collapse: collapse } th, td { text-align: left; padding: .15rem 1rem .15rem 0; vertical-align: top }
td:last-child { min-width: 12rem } td.number { text-align: right; font-variant-numeric: tabular-nums } th { font-weight: 600; border-bottom: 1px solid var(--line) }
summary { cursor: pointer; font-weight: 600 }
#live { color: var(--bad); font-weight: 600 } ul { margin: .2rem 0; padding-left: 1.2rem }
@media (max-width: 600px) { body { padding: .5rem } table { font-size: .8rem } th, td { padding-right: .5rem } td:last-child { min-width: 0 } .bar b { flex-basis: 100% } }
"""
STATES = {SERVES: "serves", IN_CHANGE: "changes", SHORT: "is short", STOPPED: "is stopped"}
# What marks the station that is lit, for a reader that hears the page.
CURRENT_STEP = ' aria-current="step"'
# What a cell shows of a worker by what it does.
KINDS = {"is ready": "ready", "starts": "starting", "finishes": "leaves", "ends": "leaves"}


def name_of(status: Status) -> str:
    """What people call a service: the name of its folder, or where that is the usual one, of the folder around it."""
    folder = pathlib.Path(status["service"]["folder"])
    return folder.parent.name or folder.name if folder.name == "run" else folder.name


def count(status: Status) -> str:
    return f"{status['running']} of {workers(status['wanted'])}, generation {status['generation'] or 'none'}"


def title_of(status: Status) -> str:
    return f"{name_of(status)} {STATES.get(status['state'], status['state'])}: {count(status)}"


def band(status: Status, words: Sequence[Done]) -> str:
    """How the service is."""
    state = status["state"]
    told = on_its_way(status["doing"]) if state == IN_CHANGE and status["doing"] else newest(words)
    return f'<section class="band {text(state)}" aria-label="state" aria-live="polite"><h1>{text(name_of(status))} ' \
        f'<strong>{text(STATES.get(state, state))}</strong></h1><p>{text(told)}</p>' \
        f'<p class="state {text(state)}">{text(status["line"])}</p><p class="count">{text(count(status))}</p></section>'


def question(status: Status) -> str:
    """What is asked, and what to type."""
    if not status["question"]:
        return ""
    number, seconds = status["question"], status["question_seconds"]
    look, answers = told_of(number)
    folder = shlex.quote(status["service"]["folder"])
    typed = "".join(f"<pre>prefork-ctl --folder {text(folder)} {answer}</pre><p>{text(told)}</p>" for answer, told in answers.items())
    return f'<section class="question" aria-label="question"><h2>It asks whether to go on</h2>' \
        f"<p>Question {number} of {len(WHO_SERVES)}, for {seconds}&nbsp;s: {text(WHO_SERVES[number])}.</p><p>{text(look)}</p>{typed}</section>"


def cell(kind: str, told: str) -> str:
    return f'<i class="cell {kind}" title="{text(told)}"></i>'


def bar(name: str, cells: list[tuple[str, str]], is_new: bool) -> str:
    """A generation: a cell for each worker, and in words how many there are of each kind."""
    kinds = list(dict.fromkeys(kind for kind, _ in cells))
    said = ", ".join(f"{sum(kind == it for it, _ in cells)} {'leaving' if kind == 'leaves' else kind}" for kind in kinds)
    drawn_cells = "".join(cell(*it) for it in cells[:MOST_CELLS])
    more = f"<span>and {len(cells) - MOST_CELLS} more</span>" if len(cells) > MOST_CELLS else ""
    told = f"{name}: {said or 'no worker'}"
    return f'<div class="bar g{int(is_new)}" role="img" aria-label="{text(told)}"><b>{text(name)}</b>{drawn_cells}{more}' \
        f'<span class="soft">{text(said or "no worker")}</span></div>'


def bars(status: Status) -> str:
    """The workers of each generation: those that were counted last, with what is missing, and those beside them."""
    cells = []
    for worker in status["workers"]:
        process = worker["process"]
        told = f"worker {worker['number']}: " + (f"process {process}, for {worker['seconds']} s" if process else "has ended")
        cells.append(("ready" if process else "ended", told))
    missing = max(0, status["wanted"] - len(cells)) if status["state"] != IN_CHANGE else 0
    cells += [("missing", "is wanted, and does not run")] * missing
    found = [bar(f"generation {status['generation']}" if status["generation"] else "no generation", cells, False)]
    goal = (status.get("progress") or {}).get("wanted") or status["wanted"]
    for generation in sorted({worker["generation"] for worker in status["others"]}):
        beside = [worker for worker in status["others"] if worker["generation"] == generation]
        others = [(KINDS.get(it["state"], "starting"), f"worker {it['number']}: process {it['process']}, {it['state']}") for it in beside]
        is_new = any(kind != "leaves" for kind, _ in others)
        if is_new:
            others += [("missing", "is to be started")] * max(0, goal - len(others))
        found.append(bar(f"generation {generation}", others, is_new))
    return f'<section><h2>Workers</h2>{"".join(found)}</section>'


def stations(status: Status) -> str:
    """Where the present word is."""
    progress = status.get("progress")
    found = shown_stations(status["doing"], progress, status["question"])
    if not found:
        return ""
    rows = "".join(f'<li class="{kind}"{CURRENT_STEP if kind == "now" else ""}>{text(name)}</li>' for name, kind in found)
    far = f'<p class="soft">{text(progress["line"])}</p>' if progress else ""
    return f'<section><h2>{text(status["doing"])}, on its way</h2><ol class="stations">{rows}</ol>{far}</section>'


def word_row(done: Done) -> str:
    """A word that was carried out, with its reasons, and what its workers said last."""
    kind = done.report.partition(" ")[0]
    word = "start" if done.word == START else done.word
    why = "".join(f'<p class="why"><code>{text(line)}</code></p>' for line in done.reasons)
    cause = f'<p class="why">call that went wrong: <code>{text(done.cause)}</code></p>' if done.cause and not why else ""
    return f'<li class="{text(kind)}"><p title="{text(done.began)}">{text(sentence(done))}</p>' \
        f'<p class="soft"><code class="word">{text(word)}</code>: <code class="report">{text(done.report)}</code>, in {done.seconds:.2f}&nbsp;s</p>' \
        f"{why}{cause}{said(done.errors)}{drawn(done)}</li>"


def last_words(words: Sequence[Done]) -> str:
    """The last words, newest first."""
    rows = "".join(word_row(done) for done in reversed(words))
    return f'<section><h2>Last words</h2>{f"<ol class=words>{rows}</ol>" if rows else "<p>None yet.</p>"}</section>'


def queues(status: Status) -> str:
    """The connections that wait at each address, the memory of all workers, and what they have answered."""
    rows = []
    for queue in status.get("queues", []):
        address, waiting, most = queue["address"], queue["waiting"], queue["most"]
        dropped = f", {queue['dropped']} were dropped" if queue["dropped"] else ""
        told = f"{waiting} of at most {most} connections wait{dropped}"
        sign = f'<meter min="0" max="{text(most)}" value="{text(waiting)}" aria-label="{text(f"queue at {address}")}"></meter>'
        rows.append(f"<li>{text(address)}: {sign} {text(told)}</li>")
    memory = sum(worker.get("memory") or 0 for worker in status["workers"])
    if memory:
        rows.append(f"<li>memory of all workers: {memory / 1e6:.0f} MB</li>")
    rows += [f"<li>requests: {text(line.partition(' ')[2].strip())}</li>" for line in shown_requests(status.get("requests"))]
    return f'<section><h2>Load</h2><ul>{"".join(rows)}</ul></section>' if rows else ""


def numbers(status: Status, plan: str) -> str:
    """Who runs by number, and the plan of the next reload."""
    service = status["service"]
    changed = "<p>The file has changed since it was accepted.</p>" if status["file_has_changed"] else ""
    addresses = " ".join(status["addresses"]) or "none"
    return f"""<details id="processes" open><summary>Processes</summary>
<p>Service process {service["process"]} in {text(service["folder"])}, for {service["seconds"]} s. Addresses: {text(addresses)}.
Now: {text(shown_doing(status))}.</p>
<div class="scroll" tabindex="0" role="region" aria-label="workers">{workers_table(status)}</div>{masters_list(status)}</details>
<details id="plan"><summary>Plan of the next HUP</summary>{changed}<pre>{text(plan)}</pre></details>"""


def middle_of(status: Status, words: Sequence[Done], plan: str) -> str:
    """What changes of the page."""
    parts = [band(status, words), question(status), bars(status), stations(status), last_words(words)]
    parts += [queues(status), numbers(status, plan)]
    return "".join(parts)


def page_of(status: Status, words: Sequence[Done], plan: str) -> str:
    """The whole page."""
    return f"""<!doctype html>
<html lang="en"><head><meta charset="utf-8"><meta name="viewport" content="width=device-width, initial-scale=1">
<title>{text(title_of(status))}</title><style>{STYLE}</style><script src="live.js" defer></script>
<noscript><meta http-equiv="refresh" content="5"></noscript></head><body>
<p id="live" role="status"></p>
<main>{middle_of(status, words, plan)}</main>
</body></html>
"""


def event_of(status: Status, words: Sequence[Done], plan: str) -> str:
    """The same for a page that is open."""
    return live.event_of(title_of(status), middle_of(status, words, plan))

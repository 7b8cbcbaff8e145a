"""The page under random clicks: what it shows beside what the program prints for the command line that it shows."""
import json
import pathlib
import random
import re
import subprocess
import tempfile
from collections.abc import Iterator
from typing import Any

from browser.chromium import BrowserFault, Page
from browser.looks import faults as look_faults
from gate.tally import ROOT

READY = "document.body.dataset.ready === 'yes'"
SECONDS = 300
EXAMPLES = ("a.toml", "b.toml", "upgrade.toml", "groups.toml", "tcp.toml", "unix.toml")
WORDS = ("HUP", "HUP", "USR2", "USR2", "USR2 attended", "TTIN", "TTOU", "WINCH", "USR1", "QUIT", "INT", "tick 0", "no word")
HELD = ("", "", "", "0.0.0.0:9090", "/run/app.sock")
WORKERS = ("", "", "", "1", "4")
AT_START = "prefork enact --from a.toml --to b.toml HUP </dev/null"
# Sets a field as a reader does.
SET = """
((id, value) => {
  const field = document.getElementById(id);
  if (field.type === 'checkbox') { if (field.checked !== value) field.click(); return; }
  field.value = value;
  field.dispatchEvent(new Event(field.tagName === 'SELECT' ? 'change' : 'input', { bubbles: true }));
})
"""
# Which cases the module answers otherwise, by their places, and how.
CASES_AT_ONCE = 100
ANSWERED = """
(async () => {
  const { load, fromBase64 } = preforkEngine();
  const lines = [], module = await load(fromBase64(PREFORK_WASM), line => lines.push(line));
  const bytes = text => Uint8Array.from(text, it => it.charCodeAt(0)), shown = text => new TextDecoder().decode(bytes(text));
  return CASES.flatMap(([, words, files, input, [status, output, errors]], i) => {
    lines.length = 0;
    const told = module.answer(words.map(bytes), files.map(pair => pair.map(bytes)), bytes(input));
    const isSame = told.status === status && told.output === shown(output) && told.errors === shown(errors) && lines.join('') === told.errors;
    return isSame ? [] : [[i, JSON.stringify(told).slice(0, 300)]];
  });
})()
"""
# What a reader sees of the word that is chosen, as the program would print it.
SEEN = """
(() => {
  const text = node => node.textContent;
  const at = [...document.querySelectorAll('#row button')].findIndex(it => it.getAttribute('aria-pressed') === 'true');
  const rows = [...document.querySelectorAll('#run tr[data-call]')];
  const calls = rows.map(row => `${text(row.querySelector('.nr'))} ${text(row.querySelector('.call'))} : ${text(row.querySelector('.answer > span'))}`);
  const field = id => document.getElementById(id).value;
  return {
    at, calls, report: text(document.getElementById('report')), word: field('word'), command: text(document.getElementById('command')),
    files: [[field('nameA'), field('a')], [field('nameB'), field('b')]], doubt: text(document.getElementById('doubt')),
    link: location.hash, head: text(document.querySelector('#end h2')),
  };
})()
"""


def set_field(page: Page, name: str, value: Any) -> None:
    page.value(f"{SET}({name!r}, {str(value).lower() if isinstance(value, bool) else repr(value)})")


def click(page: Page, selector: str, number: int = 0) -> None:
    page.value(f"document.querySelectorAll({selector!r})[{number}].click()")


def count(page: Page, selector: str) -> int:
    return int(page.value(f"document.querySelectorAll({selector!r}).length"))


def choose(page: Page, dice: random.Random) -> None:
    """Makes one thing go wrong at a random call of the present word, if something can."""
    calls = count(page, "#run button.call")
    if not calls:
        return
    click(page, "#run button.call", dice.randrange(calls))
    choices = count(page, "#run button.choice:not(:disabled)")
    if choices:
        click(page, "#run button.choice:not(:disabled)", dice.randrange(choices))


def to_start(page: Page) -> None:
    """Brings the page to its first state."""
    page.value("location.hash = '#other'; location.hash = '#start'")
    page.becomes(f"document.querySelectorAll('#row button').length === 1 && document.getElementById('command').textContent === {AT_START!r}")


def wander(page: Page, dice: random.Random) -> None:
    """Goes to a random state."""
    to_start(page)
    set_field(page, "exampleA", dice.choice(EXAMPLES))
    set_field(page, "exampleB", dice.choice(EXAMPLES))
    set_field(page, "held", dice.choice(HELD))
    set_field(page, "workers", dice.choice(WORKERS))
    set_field(page, "bare", dice.random() < 0.2)
    for number in range(dice.choice((1, 1, 1, 2, 3))):
        if number:
            click(page, "#addWord")
        set_field(page, "word", dice.choice(WORDS))
        for _ in range(dice.choice((0, 1, 1, 2))):
            choose(page, dice)
        if page.value("!document.getElementById('turnsLabel').hidden") and dice.random() < 0.3:
            set_field(page, "turns", dice.choice(("o", "noo", "oon")))
    click(page, "#row button", dice.randrange(count(page, "#row button")))


def blocks_of(output: str) -> list[str]:
    return re.split(r"(?m)^(?=word )", output)[1:]


def printed(program: str, seen: dict[str, Any]) -> subprocess.CompletedProcess[str]:
    """What the program prints for the command line that is seen."""
    with tempfile.TemporaryDirectory(prefix="page-clicks-") as folder:
        room = pathlib.Path(folder)
        (room / "bin").mkdir()
        (room / "bin" / "prefork").symlink_to(program)
        (room / "files").mkdir()
        first, second = seen["files"]
        (room / "files" / first[0]).write_text(first[1])
        # (the page gives the second file another name where its text is another)
        name = f"next-{second[0]}" if f"--to next-{second[0]} " in f"{seen['command']} " else second[0]
        (room / "files" / name).write_text(second[1])
        path = f"{room}/bin:/usr/local/bin:/usr/bin:/bin"
        how: dict[str, Any] = {"cwd": room / "files", "env": {"PATH": path}, "timeout": SECONDS}
        return subprocess.run(["sh", "-c", seen["command"]], capture_output=True, text=True, **how)


def differences(program: str, seen: dict[str, Any]) -> Iterator[str]:
    """Where the page does not show what the program prints."""
    told = printed(program, seen)
    if told.stderr and not told.stdout:
        if seen["report"] != told.stderr.splitlines()[0]:
            yield f"the program says {told.stderr!r}, the page {seen['report']!r}"
        return
    blocks = blocks_of(told.stdout)
    shown = "".join(f"{line}\n" for line in (f"word {seen['word']}", *seen["calls"], seen["report"]))
    if not 0 <= seen["at"] < len(blocks) or blocks[seen["at"]] != shown:
        yield f"{seen['command']}: the program prints {told.stdout!r}, and the page shows {shown!r}"
    if seen["doubt"]:
        yield f"{seen['command']}: {seen['doubt']}"


def link_faults(page: Page, seen: dict[str, Any], visit: int) -> Iterator[str]:
    """Whether a link gives the same state back: in a page that is open, or with a number of a visit in one that is opened."""
    if visit:
        # (another address than before: a browser would only go to another place of the same page)
        page.go(page.value("location.href.replace(/[?].*/, '').replace(/#.*/, '')") + f"?visit={visit}{seen['link']}", READY)
    else:
        page.value("location.hash = '#start'")
        page.becomes("document.querySelectorAll('#row button').length === 1")
        page.value(f"location.hash = {seen['link']!r}")
        page.becomes(f"location.hash === {seen['link']!r} && document.getElementById('command').textContent === {seen['command']!r}")
    again = page.value(SEEN)
    if again != seen:
        yield f"a link gives another state: {seen} is now {again}"


def state_faults(page: Page, program: str, dice: random.Random, number: int) -> list[str]:
    """What is wrong with one random state."""
    try:
        wander(page, dice)
        seen = page.value(SEEN)
        found = [*differences(program, seen), *link_faults(page, seen, 0 if number % 10 else number + 1)]
        return found + (look_faults(page) if number % 5 == 0 else [])
    except BrowserFault as fault:
        return [str(fault)]


def keyboard_faults(page: Page) -> Iterator[str]:
    """A call is opened, and left, by keys alone."""
    to_start(page)
    page.value("document.querySelector('tr[data-call=\"1\"] button.call').focus()")
    page.key("Enter", 13, "\r")
    page.becomes("document.querySelector('tr[data-call=\"1\"] button.call').getAttribute('aria-expanded') === 'true'")
    page.key("ArrowDown", 40)
    if not page.value("document.activeElement.closest('tr').dataset.call === '2'"):
        yield "the key down does not go to the next call"
    page.key("Escape", 27)
    if page.value("document.querySelectorAll('#run [aria-expanded=true]').length"):
        yield "Escape does not close the choices"
    page.key("Tab", 9)
    if page.value("document.activeElement === document.body"):
        yield "Tab leads nowhere"


def case_faults(page: Page) -> Iterator[tuple[str, list[str]]]:
    """The cases that need no process, answered by the module in the browser."""
    found = subprocess.run([ROOT / "library" / "cases", "--json"], capture_output=True, text=True, check=True).stdout
    cases = json.loads(found)
    for first in range(0, len(cases), CASES_AT_ONCE):
        some = cases[first:first + CASES_AT_ONCE]
        wrong = page.value(ANSWERED.replace("CASES", json.dumps(some)))
        for number, (name, *_) in enumerate(some):
            yield f"case {name}", [f"the module answers otherwise: {told}" for place, told in wrong if place == number]


def explore_faults(page: Page, program: str) -> Iterator[str]:
    """`explore` beside the page says what the program prints, and each pattern that it names can be shown."""
    to_start(page)
    for which, events in (("explore", "1"), ("pairs", "2")):
        click(page, f"#{which}")
        page.becomes("document.querySelectorAll('#explored li').length > 0")
        shown = page.value("[...document.querySelectorAll('#explored li')].map(it => it.innerText.replace(' show: ', ' under ')).join('\\n') + '\\n'")
        seen = page.value(SEEN)
        command = seen["command"].replace(" enact ", f" explore --events {events} ")
        told = printed(program, {**seen, "command": command})
        if shown != told.stdout:
            yield f"{command}: the program prints {told.stdout!r}, and the page shows {shown!r}"
    click(page, "#explored button", 1)
    if not page.value("document.querySelectorAll('#run .chip').length"):
        yield "a pattern that explore names is not shown"


def end_faults(page: Page) -> Iterator[str]:
    """A long count says how far it is, blocks nothing, and can be ended; the next one works."""
    to_start(page)
    for field in ("a", "b"):
        set_field(page, field, "workers = 16\n")
    click(page, "#pairs")
    page.becomes("document.getElementById('explored').textContent.includes('0000 runs')")
    click(page, "#run button.call")
    if not page.value("document.querySelectorAll('#run .opened').length"):
        yield "the page does not answer while it counts"
    click(page, "#endExplore")
    page.becomes("document.getElementById('explored').textContent === 'Ended.' && document.getElementById('endExplore').hidden")
    click(page, "#explore")
    page.becomes("document.querySelectorAll('#explored li').length > 0")

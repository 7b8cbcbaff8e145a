"""Status, page, metrics and blocks say the same, after each of twenty random words."""
import html
import json
import random
import re
import shutil
import subprocess
import tempfile
from typing import Any

from gate.addresses import answer_of, free_address
from gate.waiting import SECONDS, until
from web.site import BROKEN, CENSUS, Scenario, Site, size_of
from web.starts import status

WORDS = 20
SAMPLE = re.compile(r"^(\w+)(\{.*\})? (\S+)$", re.M)
ROW = re.compile(r"<tr>(?:<td[^>]*>(.*?)</td>)(?:<td[^>]*>(.*?)</td>)(?:<td[^>]*>(.*?)</td>)(?:<td[^>]*>(.*?)</td>)", re.S)
# One of the last words.
NEWEST = re.compile(r'<code class="word">([^<]*)</code>: <code class="report">([^<]*)</code>')
BROWSERS = ("chromium", "chromium-browser", "google-chrome")


def random_words(site: Site) -> None:
    """Twenty words, some of which are rolled back or refused; after each, status, page, metrics and blocks agree."""
    seed = random.randrange(10**9)
    print(f"random_words: seed {seed}")
    chance, page = random.Random(seed), free_address()
    site.options = ["--page", page]
    site.begin()
    counted: dict[tuple[str, str], int] = {}
    for number in range(WORDS):
        word = one_word(site, chance)
        sent = site.sent(word)
        block, _ = sent.communicate(timeout=SECONDS)
        report = block.splitlines()[-1] if block else ""
        counted[word, report.split()[0]] = counted.get((word, report.split()[0]), 0) + 1
        name = f"seed {seed}, word {number + 1}, {word}"
        site.check(f"{name}: no report: {block}", report)
        agree(site, name, page, word, report, counted)
        site.install(site.app_text)
    # The last words may have left no worker, and the load waits for one.
    site.configure()
    site.wants("HUP", 0, "done", 2)
    shown(site, page)
    site.end("1")


def one_word(site: Site, chance: random.Random) -> str:
    """A word, and before it sometimes a version that does not start, or a file that is refused."""
    word = chance.choice(["HUP", "HUP", "HUP", "TTIN", "TTOU", "USR1", "USR2", "WINCH"])
    site.configure(workers=chance.randint(1, 3))
    if word in ("HUP", "USR2"):
        trouble = chance.choice(["", "", "broken", "refused"])
        if trouble == "broken":
            site.install(BROKEN)
        elif trouble:
            site.config.write_text("listeners = [\n")
    return word


def measured(address: str) -> dict[tuple[str, str], float]:
    """The metrics, by name and labels."""
    found = SAMPLE.findall(answer_of(address, "/metrics"))
    return {(name, labels): float(value) for name, labels, value in found}


def agree(site: Site, name: str, page: str, word: str, report: str, counted: dict[tuple[str, str], int]) -> None:
    """Compares the four. They are asked one after another: a worker that ends meanwhile would be no fault, and there is
    none here."""
    found, numbers, text = status(site), measured(page), answer_of(page)
    last = [counts for counts in CENSUS.findall(site.blocks())][-1]
    workers = len(found["workers"])
    site.check(f"{name}: {workers} workers, and the blocks counted {last}", workers == size_of(last))
    site.check(f"{name}: the status is of another word: {found['last']}", found["last"]["word"] == word)
    site.check(f"{name}: the report {found['last']['report']} is not {report}", found["last"]["report"] == report)
    site.check(f"{name}: the last block is another", written(site, word) == report)
    agree_metrics(site, name, found, numbers, counted)
    agree_page(site, name, found, text, [word, report])
    agree_live(site, name, found, page)


def agree_metrics(site: Site, name: str, found: dict[str, Any], numbers: dict[tuple[str, str], float], counted: dict[tuple[str, str], int]) -> None:
    """Compares the metrics with the status, and with the words that were counted here."""
    last, wanted = found["last"], {("prefork_masters", ""): len(found["masters"])}
    wanted["prefork_workers", f'{{generation="{found["generation"]}"}}'] = len(found["workers"])
    wanted["prefork_last_word_done", f'{{word="{last["word"]}"}}'] = is_done(last["report"])
    for (word, outcome), count in counted.items():
        wanted["prefork_words_total", f'{{word="{word}",outcome="{outcome}"}}'] = count
    for key, value in wanted.items():
        site.check(f"{name}: {key} is {numbers.get(key)}, not {value}", numbers.get(key) == value)


def agree_page(site: Site, name: str, found: dict[str, Any], text: str, newest: list[str]) -> None:
    """Compares the page with the status and with the processes."""
    head = f"{found['running']} of {counted_workers(found['wanted'])}, generation {found['generation']}</p>"
    site.check(f"{name}: the head of the page", head in text and f'class="band {found["state"]}"' in text)
    shown_workers = {process for row in ROW.findall(text) if (process := row[2]).isdigit()}
    running = {worker["process"] for worker in found["workers"]}
    # (old workers may still finish beside them)
    site.check(f"{name}: workers on the page: {shown_workers}, {running}", set(map(str, running)) <= shown_workers)
    site.check(f"{name}: the processes", running <= site.workers())
    first = NEWEST.search(text.partition("Last words")[2])
    said = [html.unescape(it) for it in first.groups()] if first else []
    site.check(f"{name}: the newest word on the page: {said}", said == newest)


def agree_live(site: Site, name: str, found: dict[str, Any], page: str) -> None:
    """Compares what a page that is open takes, and what a program reads, with the status."""
    told, event = json.loads(answer_of(page, "/status.json")), answer_of(page, "/live")
    for key in ("generation", "wanted", "running", "state", "last"):
        site.check(f"{name}: status.json has another {key}: {told[key]}", told[key] == found[key])
    data = json.loads(event.partition("data: ")[2])
    head = f"{found['running']} of {counted_workers(found['wanted'])}, generation {found['generation']}"
    site.check(f"{name}: the event has another title: {data['title']}", data["title"].endswith(f": {head}"))
    site.check(f"{name}: the script of the page", "EventSource" in answer_of(page, "/live.js"))


def counted_workers(count: int) -> str:
    return "1 worker" if count == 1 else f"{count} workers"


def is_done(report: str) -> bool:
    return report.startswith(("done", "nothing"))


def written(site: Site, word: str) -> str:
    """The report of the last block of a word in the records."""
    block = site.blocks().rpartition(f"word {word}\n")[2]
    lines = block.partition("word ")[0].splitlines()
    return lines[-1] if lines else ""


def shown(site: Site, page: str) -> None:
    """The page in a browser, which makes a picture of it. Without a browser that is left out."""
    browser = next((path for name in BROWSERS if (path := shutil.which(name))), None)
    if not browser:
        print("random_words: no browser (apt-get install chromium); the picture of the page is left out")
        return
    until("the plan of the next HUP", lambda: "plan steps " in answer_of(page))
    picture = site.room / "page.png"
    with tempfile.TemporaryDirectory(prefix="browser-") as home:
        command: list[Any] = [
            browser, "--headless", "--no-sandbox", "--disable-gpu", "--hide-scrollbars",
            f"--user-data-dir={home}", "--window-size=1200,1600", f"--screenshot={picture}", f"http://{page}/",
        ]
        ended = subprocess.run(command, stdin=subprocess.DEVNULL, capture_output=True, timeout=SECONDS)
    size = picture.stat().st_size if picture.exists() else 0
    site.check(f"no picture of the page: {ended.stderr[-300:]!r}", size > 10_000)


SCENARIOS: tuple[Scenario, ...] = (random_words,)

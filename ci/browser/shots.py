"""The states of which pictures are taken, and in which a page is looked at."""
from browser import clicks
from browser.chromium import Page

HEIGHT = 900
LOOKS = ((1280, "light"), (390, "light"), (1280, "dark"), (390, "dark"))
# Of the page that rehearses: the word, and what is clicked (a call, and the words with which its choice begins).
REHEARSALS: dict[str, tuple[str, list[tuple[int, str]]]] = {
    "before": ("HUP", []),
    "during": ("HUP", [(3, "")]),
    "rolled-back": ("HUP", [(3, "again")]),
    "after": ("USR2", []),
    "short": ("HUP", [(10, "w1.2.0"), (11, "again"), (13, "again"), (15, "again"), (17, "again"), (19, "again")]),
    "question": ("USR2 attended", [(12, "")]),
}
# What a screen reader finds of each beside what it finds of all, by role and text.
HEARD: dict[str, list[tuple[str, str]]] = {
    "before": [("heading", "done"), ("image", "generation 1.1: 3 ready")],
    "during": [("heading", "done"), ("group", "what can go wrong at call 3"), ("button", "no-memory rolled-back"), ("button", "w1.2.0 exits rolled-back")],
    "rolled-back": [("heading", "rolled-back"), ("button", "take back 3 fail again"), ("button", "Nothing goes wrong")],
    "after": [("heading", "done"), ("image", "generation 2.2: 2 ready")],
    "short": [("heading", "degraded"), ("StaticText", "The service runs with fewer workers than wanted."), ("button", "take back 11 fail again")],
    "question": [("heading", "done"), ("group", "what can go wrong at call 12"), ("button", "back rolled-back")],
}
OF_ALL = [
    ("heading", "Rehearse a reload"), ("textbox", "What runs"), ("textbox", "What comes"), ("combobox", "Word"), ("region", "calls of the run"),
    ("region", "picture of the plan"), ("image", "the plan, "), ("button", "Certify"), ("textbox", "blocks of a master"),
]


def heard(page: Page, name: str) -> list[tuple[str, str]]:
    """What a screen reader should find in a state: each call of the run is a button, and the report is a text."""
    seen = page.value(clicks.SEEN)
    calls = [("button", line.split(" ", 1)[1].partition(" : ")[0]) for line in seen["calls"]]
    return [*OF_ALL, *HEARD[name], *calls, ("StaticText", seen["report"])]


def show(page: Page, name: str) -> None:
    """Brings the page into a state."""
    word, chosen = REHEARSALS[name]
    clicks.to_start(page)
    clicks.set_field(page, "word", word)
    for call, choice in chosen:
        here = f"tr[data-call=\"{call}\"]"
        page.value(f"(() => {{ const it = document.querySelector('{here} button.call'); if (it && it.getAttribute('aria-expanded') !== 'true') it.click(); }})()")
        if choice:
            page.value(f"(() => {{ const it = [...document.querySelectorAll('button.choice')].find(it => it.textContent.startsWith({choice!r})); if (it) it.click(); }})()")

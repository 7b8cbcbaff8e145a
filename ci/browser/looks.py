"""What can be seen and heard of a page: names in the tree of a screen reader, contrast, and its width."""
import collections
from collections.abc import Iterable, Iterator
from typing import Any

from browser.chromium import Page

# The roles that a reader must be able to tell by a name.
NAMED = {
    "button", "textbox", "checkbox", "combobox", "listbox", "link", "image", "img", "region", "table", "heading", "searchbox",
    "group", "menuitem",
}
# Groups without a name are the browser's own.
MAY_LACK = {"group", "listbox"}
# The least contrast of a text, and of a sign: what tells something without a text, and the edges of fields.
TEXT, SIGN = 4.5, 3.0
COLOURS = """
  const numbers = text => {
    const probe = document.createElement('canvas');
    probe.width = probe.height = 1;
    const pen = probe.getContext('2d', { willReadFrequently: true });
    pen.fillStyle = text;
    pen.fillRect(0, 0, 1, 1);
    const [r, g, b, a] = pen.getImageData(0, 0, 1, 1).data;
    return [r, g, b, a / 255];
  };
  const over = (top, under) => top.slice(0, 3).map((it, i) => it * top[3] + under[i] * (1 - top[3]));
  const light = ([r, g, b]) => {
    const part = it => it / 255 <= 0.04045 ? it / 255 / 12.92 : ((it / 255 + 0.055) / 1.055) ** 2.4;
    return 0.2126 * part(r) + 0.7152 * part(g) + 0.0722 * part(b);
  };
  const ground = node => {
    const layers = [];
    for (let at = node; at; at = at.parentElement) layers.push(numbers(getComputedStyle(at).backgroundColor));
    const dark = matchMedia('(prefers-color-scheme: dark)').matches;
    return layers.reverse().reduce((under, layer) => over(layer, under), dark ? [18, 18, 18] : [255, 255, 255]);
  };
  const ratio = (p, q) => (Math.max(light(p), light(q)) + 0.05) / (Math.min(light(p), light(q)) + 0.05);
  const found = [];
"""
CONTRASTS = f"""
(() => {{
{COLOURS}
""" + """
  const walk = document.createTreeWalker(document.body, NodeFilter.SHOW_TEXT);
  for (let text = walk.nextNode(); text; text = walk.nextNode()) {
    const node = text.parentElement, style = getComputedStyle(node);
    if (!text.textContent.trim() || !node.checkVisibility() || node.closest(':disabled, .unseen, script, style, datalist, option')) continue;
    if (node.closest('svg')) continue;
    const under = ground(node);
    const got = ratio(over(numbers(style.color), under), under);
    if (got < LEAST) found.push(`${text.textContent.trim().slice(0, 40)}: ${got.toFixed(2)}`);
  }
  return found;
})()
"""


# Cells, boxes and arrows by what draws them; of a cell that is both filled and edged, the edge.
SIGNS = f"""
(() => {{
{COLOURS}
""" + """
  const kinds = {
    'input:not(:disabled), select, textarea, i.cell, .group i, .legend i': 'border-top-color', '.calls i': 'background-color',
    '.band, .question, #end': 'border-left-color', '.words li, details.block': 'border-left-color',
    'svg rect, svg path.arrow': 'stroke', 'svg path.tip': 'fill',
  };
  for (const [selector, name] of Object.entries(kinds)) {
    for (const node of document.querySelectorAll(selector)) {
      const style = getComputedStyle(node), inSvg = node.closest('svg');
      if (!node.checkVisibility() && !node.closest('defs')) continue;
      const under = ground((inSvg || node).parentElement), [r, g, b, a] = numbers(style.getPropertyValue(name));
      const got = ratio(over([r, g, b, a * Number(style.opacity)], under), under);
      if (got < LEAST) found.push(`${node.localName}.${node.getAttribute('class') || node.id}: ${got.toFixed(2)}`);
    }
  }
  const accent = numbers(getComputedStyle(document.documentElement).getPropertyValue('--accent').trim());
  for (const place of [document.body, document.querySelector('section')]) {
    const got = ratio(accent, ground(place));
    if (got < LEAST) found.push(`where the keys are: ${got.toFixed(2)}`);
  }
  return [...new Set(found)];
})()
"""


# The parts of a page that are scrolled sideways, and cannot be by keys.
SCROLLED = """
[...document.querySelectorAll('main *')].filter(it => it.scrollWidth > it.clientWidth + 1 && ['auto', 'scroll'].includes(getComputedStyle(it).overflowX)
  && it.checkVisibility() && it.tabIndex < 0).map(it => `${it.localName} ${it.id || it.className}`)
"""


# The words of a command that are broken between two lines, though each would fit into one.
BROKEN = """
[...document.querySelectorAll('#command, .question pre')].flatMap(box => {
  const found = [], walk = document.createTreeWalker(box, NodeFilter.SHOW_TEXT);
  for (let text = walk.nextNode(); text; text = walk.nextNode()) {
    for (const word of text.data.matchAll(/\\S+/g)) {
      const range = document.createRange();
      range.setStart(text, word.index);
      range.setEnd(text, word.index + word[0].length);
      const parts = [...range.getClientRects()], wide = parts.reduce((sum, it) => sum + it.width, 0);
      if (new Set(parts.map(it => Math.round(it.top))).size > 1 && wide < box.clientWidth / 2) found.push(word[0]);
    }
  }
  return found;
})
"""


def value_of(node: Any, key: str) -> str:
    return str(node.get(key, {}).get("value", "")).strip()


def unnamed(tree: list[Any]) -> Iterator[str]:
    """What has a role and no name."""
    for node in tree:
        role = value_of(node, "role").lower()
        if role in NAMED - MAY_LACK and not value_of(node, "name"):
            yield f"a {role} without a name"


def unheard(page: Page, wanted: Iterable[tuple[str, str]]) -> Iterator[str]:
    """What a screen reader should find, each by its role and a part of its name, and does not: as often as it is wanted."""
    found = [(value_of(node, "role"), value_of(node, "name")) for node in page.tree()]
    for (role, text), count in collections.Counter(wanted).items():
        names = [name for its, name in found if its == role]
        if sum(text in name for name in names) < count:
            yield f"a screen reader finds no {role} that says {text!r}{f' {count} times' if count > 1 else ''}: {names}"


def low_contrasts(page: Page) -> list[str]:
    """Texts and signs that are hard to see on their ground."""
    signs = [f"low contrast of a sign: {it}" for it in page.value(SIGNS.replace("LEAST", str(SIGN)))]
    return [f"low contrast: {it}" for it in page.value(CONTRASTS.replace("LEAST", str(TEXT)))] + signs


def too_wide(page: Page) -> list[str]:
    """Whether the page must be scrolled sideways."""
    width, room = page.value("[document.documentElement.scrollWidth, innerWidth]")
    parts = [f"{it} is scrolled sideways, and no key leads to it" for it in page.value(SCROLLED)]
    return [f"the page is {width} wide in a window of {room}", *parts] if width > room else parts


def broken_words(page: Page) -> list[str]:
    """Words of a command that are broken between two lines: who types them after it types a space there."""
    return [f"{it} is broken between two lines" for it in page.value(BROKEN)]


def faults(page: Page) -> list[str]:
    """All that is wrong with how a page looks now."""
    return [*unnamed(page.tree()), *low_contrasts(page), *too_wide(page), *broken_words(page)]

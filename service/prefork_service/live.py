"""How the page stays as the service is: a script that takes the page's middle from the service each second, as
server-sent events. Each answer has one event, and the browser asks again: no visitor keeps a connection."""
import json

EVENT_KIND, SCRIPT_KIND = "text/event-stream; charset=utf-8", "text/javascript; charset=utf-8"
JSON_KIND = "application/json"
# How long a browser waits before it asks again, in milliseconds.
RETRY = 1000
SCRIPT = """'use strict';
(() => {
  const main = document.querySelector('main'), said = document.getElementById('live');
  let source = null, seen = '';
  // Only what differs is changed, so that what is open, where the keys are and what is marked stays.
  const liken = (old, next) => {
    if (old.nodeName !== next.nodeName) return old.replaceWith(next);
    if (old.nodeType === Node.TEXT_NODE) {
      if (old.data !== next.data) old.data = next.data;
      return undefined;
    }
    const isOwn = name => name === 'open';
    for (const { name } of [...old.attributes]) if (!isOwn(name) && !next.hasAttribute(name)) old.removeAttribute(name);
    for (const { name, value } of next.attributes) if (!isOwn(name) && old.getAttribute(name) !== value) old.setAttribute(name, value);
    return likenParts(old, next);
  };
  // A part with an id is the same in any place; the others are told apart by their places.
  const likenParts = (old, next) => {
    const named = new Map([...old.children].filter(it => it.id).map(it => [it.id, it]));
    let at = old.firstChild;
    const removeUpTo = end => { while (at !== end) { const gone = at; at = at.nextSibling; gone.remove(); } };
    for (const part of [...next.childNodes]) {
      const same = part.id ? named.get(part.id) : undefined;
      if (same) removeUpTo(same);
      if (!at || at.id && at !== same) { old.insertBefore(part, at); continue; }
      const here = at;
      at = at.nextSibling;
      liken(here, part);
    }
    removeUpTo(null);
  };
  const show = ({ title, middle }) => {
    said.textContent = '';
    document.title = title;
    if (middle === seen) return;
    seen = middle;
    const next = document.createElement('template');
    next.innerHTML = middle;
    likenParts(main, next.content);
  };
  let failures = 0;
  const listen = () => {
    source = new EventSource('live');
    source.onmessage = event => { failures = 0; show(JSON.parse(event.data)); };
    source.onerror = () => {
      failures++;
      if (failures > 3) said.textContent = 'The service does not answer. What follows is what it said last.';
      if (source.readyState === EventSource.CLOSED) setTimeout(listen, 1000);
    };
  };
  const attend = () => {
    if (document.hidden) { if (source) source.close(); source = null; } else if (!source) listen();
  };
  document.addEventListener('visibilitychange', attend);
  attend();
})();
"""


def event_of(title: str, middle: str) -> str:
    """An event with the page's title and its middle."""
    return f"retry: {RETRY}\ndata: {json.dumps({'title': title, 'middle': middle})}\n\n"

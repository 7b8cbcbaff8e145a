'use strict';
// Elements of a page, made and found.
const byId = id => document.getElementById(id);
const make = (name, given = {}, ...inside) => {
  const node = document.createElement(name);
  for (const [key, value] of Object.entries(given)) {
    if (key.startsWith('on')) node.addEventListener(key.slice(2), value);
    else if (value === true) node.setAttribute(key, '');
    else if (value !== false && value !== null && value !== undefined) node.setAttribute(key, value);
  }
  node.append(...inside);
  return node;
};
const button = (text, onclick, given = {}) => make('button', { type: 'button', onclick, ...given }, text);
const many = (count, what) => `${count} ${what}${count === 1 ? '' : 's'}`;
// A text whose words are broken between two lines only if they do not fit into one: a browser breaks a line after a hyphen.
const whole = text => text.split(' ').flatMap((word, i) => [...(i ? [' '] : []), make('span', { class: 'whole' }, word)]);
// Tells the seconds of a long question in a line, until it is stopped.
const clock = (line, told) => {
  const began = Date.now();
  const tell = () => { line.textContent = told(Math.round((Date.now() - began) / 1000)); };
  const running = setInterval(tell, 1000);
  return { tell, stop: () => clearInterval(running) };
};
// Copies a text, and says so in the button. A page from disk may have no clipboard: then the text is selected.
const copyTo = async (pressed, text, holder) => {
  const before = pressed.textContent;
  try {
    await navigator.clipboard.writeText(text);
    pressed.textContent = 'Copied';
    setTimeout(() => { pressed.textContent = before; }, 1500);
  } catch (fault) {
    if (holder) getSelection().selectAllChildren(holder);
    pressed.textContent = 'Press Ctrl-C to copy';
  }
};

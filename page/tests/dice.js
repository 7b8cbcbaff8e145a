'use strict';
// Random numbers that come again with their seed, and random states of the page.
const Asked = require('../asked.js');
const diceOf = seed => {
  let at = seed >>> 0;
  const next = () => {
    at = (at + 0x6D2B79F5) >>> 0;
    let t = at;
    t = Math.imul(t ^ (t >>> 15), t | 1);
    t ^= t + Math.imul(t ^ (t >>> 7), t | 61);
    return ((t ^ (t >>> 14)) >>> 0) / 4294967296;
  };
  const below = count => Math.floor(next() * count);
  const choice = list => list[below(list.length)];
  return { below, choice };
};
const HELD = ['', '', '', '0.0.0.0:9090', '/run/app.sock', 'it is no address'];
const WORDS = [...Asked.WORDS, 'USR2', 'USR2', 'HUP', 'beat 0 4', 'tick 100', 'USR2  attended', '-x', "it's"];
// A word with random things that go wrong in it: of calls that there are, and of some that there are not.
const wordOf = (dice, calls) => {
  const events = [];
  for (let count = dice.choice([0, 0, 1, 1, 2]); count; count--) {
    const call = dice.choice(calls), fates = call ? Asked.FATES[call.call.split(' ')[0]] : null;
    const n = call ? call.number : 1 + dice.below(9);
    if (fates && dice.below(3)) events.push({ n, fate: dice.choice(fates) });
    else events.push({ n, name: dice.choice(['w1.1.0', 'w1.1.1', 'w1.2.0', 'w2.2.0', 'w2.2.1', 'd1.1.0', 'm2']) });
  }
  const kept = events.filter((event, i) => !event.fate || !events.slice(i + 1).some(it => it.n === event.n && it.fate));
  return kept;
};
// A state, of which `callsOf` says the calls of the last word that it has so far.
const stateOf = (dice, callsOf) => {
  const state = Asked.start(), names = Object.keys(Asked.EXAMPLES);
  state.nameA = dice.choice(names);
  state.nameB = dice.choice(names);
  state.a = Asked.EXAMPLES[state.nameA];
  state.b = Asked.EXAMPLES[state.nameB] + dice.choice(['', '', '', '# another\n', 'workers = x\n']);
  state.held = dice.choice(HELD);
  state.workers = dice.choice(['', '', '', '1', '4', '2000']);
  state.bare = dice.below(4) === 0;
  state.words = [];
  for (let count = dice.choice([1, 1, 1, 2, 3]); count; count--) {
    state.words.push(Asked.wordOf(dice.choice(WORDS)));
    const last = state.words[state.words.length - 1];
    last.events = wordOf(dice, callsOf(state));
    if (last.word.startsWith('USR2')) last.turns = dice.choice(['', '', 'o', 'noo', 'oon']);
  }
  state.at = dice.below(state.words.length);
  return state;
};
module.exports = { diceOf, stateOf };

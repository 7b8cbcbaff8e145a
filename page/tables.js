'use strict';
// Tables of processes: read from what `--state` prints, and, between two calls, drawn from the calls alone, since the program
// prints none there. The page compares the last one that is drawn with the program's.
const Tables = (() => {
  const NONE = { workers: [], masters: [], foreign: [] };
  const setOf = text => {
    const found = new Set();
    if (!text || text === 'none') return found;
    for (const part of text.split(',')) {
      const [from, to] = part.split('-').map(Number);
      for (let k = from; k <= (to === undefined ? from : to); k++) found.add(k);
    }
    return found;
  };
  const rowOf = words => {
    const holds = new Map(!words[7] || words[7] === 'none' ? [] : words[7].split(',').map(it => [it.slice(0, it.indexOf('=')), it.slice(it.indexOf('=') + 1)]));
    return { number: words[1], parent: words[3], who: words[4], stance: words[5], holds, addresses: [...holds.values()] };
  };
  // The table in lines of `--state`.
  const read = text => {
    const table = { workers: [], masters: [], foreign: [] };
    for (const line of text.split('\n')) {
      const words = line.split(' ');
      if (words[0] !== 'process') continue;
      const row = rowOf(words);
      (row.who === 'foreign' ? table.foreign : row.who[0] === 'm' ? table.masters : table.workers).push(row);
    }
    for (const row of table.workers) row.master = (table.masters.find(it => it.number === row.parent) || { who: '' }).who;
    return table;
  };
  const copied = table => ({
    workers: table.workers.map(row => ({ ...row })),
    masters: table.masters.map(row => ({ ...row, holds: new Map(row.holds) })), foreign: table.foreign,
  });
  const serves = row => row.stance === 'ready' || row.stance === 'starting';
  const drop = (table, test) => { table.workers = table.workers.filter(row => !test(row)); };
  const live = (table, who) => table.masters.find(row => row.who === who && row.stance === 'live');
  const without = (table, who) => {
    table.masters = table.masters.filter(row => row.who !== who);
    drop(table, row => row.master === who);
  };
  // A process exits just before a call.
  const exit = (table, name) => {
    if (name[0] === 'm') {
      const gone = live(table, name);
      if (!gone) return;
      gone.stance = 'exited';
      gone.holds.clear();
      drop(table, row => row.master === name);
      return;
    }
    const isOf = row => row.who === `w${name.slice(1)}` && (name[0] === 'd' ? row.stance === 'draining' : serves(row));
    const row = table.workers.find(isOf);
    if (row) { row.stance = 'exited'; row.addresses = []; }
  };
  // What a call changes, by its name: the words of the call, its answer, the master that makes it, and its worker.
  const CHANGES = {
    'open': (table, { words, answer, by }) => { if (answer.startsWith('opened')) by.holds.set(answer.split(' ')[1], words[1]); },
    'close': (table, { words, me, by }) => {
      for (const [fd, at] of by.holds) if (at === words[1]) by.holds.delete(fd);
      for (const row of table.workers) if (row.master === me) row.addresses = row.addresses.filter(at => at !== words[1]);
    },
    'fork': (table, { words, answer, me, by, who }) => {
      if (answer !== 'forked') return;
      const fds = words[3] === 'fds' ? [...setOf(words[4])].map(String) : [...by.holds.keys()];
      table.workers.push({ who, stance: 'starting', master: me, addresses: fds.map(fd => by.holds.get(fd)).filter(Boolean) });
    },
    'await-ready': (table, { answer, isMine }) => {
      if (answer === 'ready') for (const row of table.workers) if (isMine(row) && row.stance === 'starting') row.stance = 'ready';
      if (answer === 'gone') drop(table, row => isMine(row) && row.stance === 'exited');
    },
    'quit': (table, { isMine }) => {
      for (const row of table.workers) if (isMine(row) && serves(row)) { row.stance = 'draining'; row.addresses = []; }
    },
    'kill': (table, { isMine }) => drop(table, isMine),
    'await-gone': (table, { answer, isMine }) => { if (answer === 'gone') drop(table, isMine); },
    'census': (table, { me }) => drop(table, row => row.master === me && row.stance === 'exited'),
    'spawn-master': (table, { words, answer, by }) => {
      if (answer === 'spawned') table.masters.push({ who: `m${words[1]}`, stance: 'live', holds: new Map(by.holds) });
    },
    'leave': (table, { me }) => without(table, me),
    'term-master': (table, { words }) => without(table, `m${words[1]}`),
  };
  const after = (before, call, events) => {
    const table = copied(before);
    for (const event of events) if (event.n === call.number && event.name) exit(table, event.name);
    const words = call.call.split(' '), me = `m${call.master}`, who = `w${words[1]}.${words[2]}`;
    const by = live(table, me), change = CHANGES[words[0]];
    const isMine = row => row.master === me && row.who === who;
    if (by && change && call.answer !== 'master-gone') change(table, { words, answer: call.answer, me, by, who, isMine });
    for (const row of table.masters) row.addresses = [...row.holds.values()];
    return table;
  };
  // The tables before the first call and after each, from the first one, the calls, and the exits in their order.
  const drawn = (first, calls, events) => {
    const tables = [first];
    for (const call of calls) tables.push(after(tables[tables.length - 1], call, events));
    return tables;
  };
  // All that is drawn of a table, to compare two: workers that have addresses, and what each master has open.
  const drawnRow = row => `${row.who} ${row.stance} ${[...row.addresses].sort()}`;
  const seen = table => [...table.workers.filter(row => row.addresses.length), ...table.masters.filter(row => row.stance === 'live')].map(drawnRow).sort().join('; ');
  const generation = who => who.slice(1, who.lastIndexOf('.'));
  return { NONE, read, drawn, seen, setOf, generation };
})();
if (typeof module !== 'undefined') module.exports = Tables;

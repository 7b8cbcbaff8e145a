'use strict';
// The run of a word: its calls, who serves each address after each of them, and what can go wrong at a call.
const Run = (() => {
  const MOST_ROWS = 400, MOST_SQUARES = 8, MOST_NAMES = 24;
  const KINDS = 4;
  // The report as the program writes it.
  const reportOf = block => {
    if (block.outcome === 'nothing') return 'nothing';
    if (block.outcome === 'refused') return `refused ${block.code}`;
    const side = block.side ? ` ${block.side} ${block.short.join(',')}` : '';
    return `${block.outcome}${side} cause ${block.cause === null ? 'none' : block.cause} pid ${block.pid}`;
  };
  const ended = block => block.outcome + (block.side ? ` ${block.side} ${block.short.join(',')}` : '') + (block.code ? ` ${block.code}` : '');
  const isPlain = call => {
    const [name] = call.call.split(' ');
    if (name === 'await-gone' && call.answer === 'gone') return true;
    return ![...(Asked.FATES[name] || []), 'gone', 'master-gone'].includes(call.answer);
  };
  const counted = rows => {
    const stances = ['ready', 'starting', 'draining', 'exited'];
    return stances.map(it => [it, rows.filter(row => row.stance === it).length]).filter(([, count]) => count).map(([it, count]) => `${count} ${it}`).join(', ');
  };
  // The workers of one generation at an address: squares, or their number if they are many.
  const groupOf = (generation, kind, rows) => {
    const box = make('span', { class: `group g${kind}`, role: 'img', 'aria-label': `generation ${generation}: ${counted(rows)}` });
    const squares = rows.length <= MOST_SQUARES ? rows.map(row => row.stance) : ['ready'];
    box.append(...squares.map(stance => make('i', { class: stance })));
    if (rows.length > MOST_SQUARES) box.append(`×${rows.filter(row => row.stance === 'ready').length}`);
    box.append(make('small', {}, generation));
    return box;
  };
  const cellOf = (table, address, generations) => {
    const cell = make('td', { class: 'who', 'data-address': address });
    const here = table.workers.filter(row => row.addresses.includes(address));
    generations.forEach((generation, i) => {
      const rows = here.filter(row => Tables.generation(row.who) === generation);
      if (rows.length) cell.append(groupOf(generation, i % KINDS, rows));
    });
    const isOpen = table.masters.some(row => row.stance === 'live' && row.addresses.includes(address));
    if (!isOpen) {
      const isHeld = table.foreign.some(row => row.addresses.includes(address));
      cell.classList.add('closed');
      if (!here.length) cell.append(make('small', {}, isHeld ? 'held by another' : 'not open'));
    } else if (!here.some(row => row.stance === 'ready')) {
      cell.classList.add('unserved');
      cell.append(make('small', {}, 'nobody ready'));
    }
    return cell;
  };
  const chip = (page, event, before = '') => {
    const what = event.fate ? `fails: ${event.fate}` : `${event.name} exits before`;
    const takeBack = () => page.change(word => { word.events = word.events.filter(it => it !== event); });
    return make('span', { class: 'chip' }, before + what, button('×', takeBack, { 'aria-label': `take back ${Asked.lineOf(event)}` }));
  };
  const headOf = addresses => make('tr', {}, make('th', { scope: 'col' }, make('span', { class: 'unseen' }, 'number')), make('th', { scope: 'col' }, 'call'), make('th', { scope: 'col' }, 'answer'), ...addresses.map(it => make('th', { scope: 'col' }, it)));
  const rowOf = (page, call, mine, isCause) => {
    const { state } = page, isOpen = state.open === call.number;
    const toggle = () => { state.open = isOpen ? 0 : call.number; page.refresh(); focusOn(call.number); };
    const name = button(`m${call.master} ${call.call}`, toggle, { class: 'call', 'aria-expanded': String(isOpen) });
    return make('tr', { class: (isCause ? 'cause ' : '') + (isOpen ? 'opened' : ''), 'data-call': call.number },
      make('td', { class: 'nr' }, String(call.number)), make('td', { class: 'made' }, name),
      make('td', { class: isPlain(call) ? 'answer' : 'answer fault' }, make('span', {}, call.answer), ...mine.map(event => chip(page, event))));
  };
  const show = (page, block, tables) => {
    const { state } = page, word = page.word();
    const all = tables.flatMap(table => [...table.masters, ...table.foreign].flatMap(row => row.addresses));
    const addresses = [...new Set(all)];
    const generations = [...new Set(tables.flatMap(table => table.workers.map(row => Tables.generation(row.who))))].sort();
    const cells = table => table ? addresses.map(it => cellOf(table, it, generations)) : [];
    const rows = [make('tr', { class: 'start' }, make('td'), make('td', { colspan: 2 }, block.calls.length ? 'before the first call' : 'no call is made'), ...cells(tables[0]))];
    for (const call of block.calls.slice(0, MOST_ROWS)) {
      const mine = word.events.filter(event => event.n === call.number);
      const row = rowOf(page, call, mine, call.number === block.cause);
      row.append(...cells(tables[call.number]));
      rows.push(row);
      if (state.open !== call.number) continue;
      const choices = choicesOf(page, call, tables[call.number - 1] || Tables.NONE, block);
      rows.push(make('tr', { class: 'choices' }, make('td'), make('td', { colspan: 2 + addresses.length }, choices)));
    }
    if (block.calls.length > MOST_ROWS) rows.push(make('tr', {}, make('td'), make('td', { colspan: 2 }, `and ${many(block.calls.length - MOST_ROWS, 'more call')}`)));
    byId('run').tHead.replaceChildren(headOf(addresses));
    byId('run').tBodies[0].replaceChildren(...rows);
    showEvents(page, word, block);
    byId('legend').replaceChildren(...legend(generations));
  };
  const legend = generations => [
    ...generations.map((it, i) => make('span', { class: `group g${i % KINDS}` }, make('i', { class: 'ready' }), ` generation ${it}`)),
    make('span', {}, make('i', { class: 'ready' }), ' ready'), make('span', {}, make('i', { class: 'starting' }), ' starting'),
  ];
  const showEvents = (page, word, block) => {
    const beyond = word.events.filter(event => event.n > block.calls.length);
    if (!word.events.length) return byId('events').replaceChildren('Click on a call to make it fail, or to let a worker exit just before it.');
    const all = button('Nothing goes wrong', () => page.change(it => { it.events = []; }));
    const chips = beyond.map(event => chip(page, event, 'past the end of the run: '));
    return byId('events').replaceChildren(`${many(word.events.length, 'thing')} ${word.events.length === 1 ? 'goes' : 'go'} wrong. `, ...chips, ' ', all);
  };
  const clear = () => {
    byId('run').tHead.replaceChildren();
    byId('run').tBodies[0].replaceChildren();
    byId('events').replaceChildren();
    byId('legend').replaceChildren();
  };
  const focusOn = number => {
    const found = document.querySelector(`tr[data-call="${number}"] button.call`);
    if (found) found.focus();
  };
  const withEvent = (events, event) => Asked.inOrder(event.fate ? [...events.filter(it => !(it.n === event.n && it.fate)), event] : [...events, event]);
  // What can go wrong at a call, each labelled with how the word would end then.
  const choicesOf = (page, call, table, block) => {
    const box = make('div', { class: 'choices', role: 'group', 'aria-label': `what can go wrong at call ${call.number}` });
    const offer = event => {
      const events = withEvent(page.word().events, event);
      const then = page.blockUnder(events);
      const isSame = then && JSON.stringify(then) === JSON.stringify(block);
      const end = then ? ended(then) : 'refused';
      const how = isSame ? (event.fate ? 'no effect' : `${end}, same calls`) : end;
      const choose = () => { page.change(word => { word.events = events; }); focusOn(call.number); };
      return make('button', { type: 'button', class: `choice ${then ? then.outcome : 'refused'}`, disabled: isSame && !!event.fate, onclick: choose, 'data-event': Asked.lineOf(event) },
        event.fate ? event.fate : `${event.name} exits`, make('small', {}, how));
    };
    const fates = Asked.FATES[call.call.split(' ')[0]] || [];
    if (fates.length) box.append(make('p', {}, `Call ${call.number} is answered`), ...fates.map(fate => offer({ n: call.number, fate })));
    const living = table.workers.filter(row => row.stance === 'ready' || row.stance === 'starting').slice(0, MOST_NAMES).map(row => row.who);
    const others = table.masters.filter(row => row.stance === 'live').map(row => row.who).slice(1);
    if (living.length + others.length) box.append(make('p', {}, 'Just before it'), ...[...living, ...others].map(name => offer({ n: call.number, name })));
    if (!box.childElementCount) box.append(make('p', {}, 'Nothing can go wrong here.'));
    return box;
  };
  // The keys up and down go from call to call, and Escape closes the choices.
  const onKey = (page, event) => {
    if (event.key === 'Escape' && page.state.open) {
      const { open } = page.state;
      page.state.open = 0;
      page.refresh();
      return focusOn(open);
    }
    const step = { ArrowDown: 1, ArrowUp: -1 }[event.key];
    if (!step || !event.target.matches('button.call')) return undefined;
    const all = [...byId('run').querySelectorAll('button.call')];
    const next = all[all.indexOf(event.target) + step];
    event.preventDefault();
    return next && next.focus();
  };
  return { show, clear, reportOf, ended, isPlain, onKey };
})();

'use strict';
// The page: what is asked, the run with what goes wrong in it, the plan, and the same as a command line. Every answer is the
// program's, which runs here as a module.
const Page = (() => {
  const MOST_TABLES = 200, MOST_STEPS = 300;
  const FIELDS = ['a', 'b', 'nameA', 'nameB', 'held', 'workers'];
  const page = { state: Asked.start() };
  let engine = null;
  page.word = () => page.state.words[page.state.at];
  page.ask = (words, files, input) => engine.answer(words, files, input);
  const enacted = (count, more) => page.ask(...Asked.enacting(page.state, count, more));
  page.explained = code => {
    const told = code ? page.ask(['explain', code.split(' ')[0]]) : { status: 1 };
    // (its paragraphs are broken into lines for a terminal)
    return told.status === 0 ? told.output.trim().split('\n\n').map(it => it.replace(/\n/g, ' ')).join('\n\n') : '';
  };
  // The block of the present word, if these were its events; null if the program refuses.
  page.blockUnder = events => {
    const { state } = page;
    const words = state.words.slice(0, state.at + 1).map((it, i) => i === state.at ? { ...it, events } : it);
    const told = page.ask(...Asked.enacting({ ...state, words }, words.length, ['--json']));
    return told.errors ? null : JSON.parse(told.output).blocks[state.at];
  };
  // Changes the present word, and shows what follows.
  page.change = how => {
    how(page.word());
    page.refresh();
  };
  // Shows these words, the last of them first.
  page.load = (words, bare) => {
    Object.assign(page.state, { words, bare, at: words.length - 1, open: 0 });
    fill();
    page.refresh();
  };
  // Shows other files.
  page.take = given => {
    Object.assign(page.state, given);
    Counts.clear();
    fill();
    page.refresh();
  };
  const shown = fault => fault.replace(/^prefork: /, '').trim();
  const check = which => {
    const i = which === 'A' ? 0 : 1, file = Asked.files(page.state)[i];
    const told = page.ask(['check', file[0]], [file]);
    const line = byId(`check${which}`);
    line.textContent = told.output.trim() || shown(told.errors);
    line.className = `check ${told.status === 0 ? 'good' : 'bad'}`;
  };
  // The tables of the present word, the last of them compared with the program's.
  const tablesOf = block => {
    const { state } = page;
    const table = (words, pattern) => {
      const told = page.ask(['enact', ...Asked.options(state), ...Asked.held(state), '--state', '--', ...words.map(it => it.word)], Asked.files(state), pattern);
      return Tables.read(told.output);
    };
    const before = state.words.slice(0, state.at), all = state.words.slice(0, state.at + 1);
    // (this word is refused, and changes nothing)
    const first = before.length ? table(before, Asked.patternOf(before)) : table([Asked.wordOf('beat 1023 0')], '');
    const tables = Tables.drawn(first, block.calls, Asked.inOrder(page.word().events));
    const last = table(all, Asked.patternOf(all));
    const isSame = Tables.seen(last) === Tables.seen(tables[tables.length - 1]);
    byId('doubt').textContent = isSame ? '' : 'The last table is not the program\'s: do not trust the columns of addresses.';
    return tables;
  };
  const MEANT = {
    'done': 'The service that was asked for runs.', 'rolled-back': 'The service that ran before runs again.',
    'degraded': 'The service runs with fewer workers than wanted.', 'lost': 'The master that should act is gone.',
    'nothing': 'No call was needed.', 'refused': 'The word was refused, and the state is as it was.',
  };
  const showEnd = (block, told) => {
    const end = byId('end');
    if (!block) {
      const [line] = told.errors.split('\n'), code = /[A-Z]\d+/.exec(line);
      end.className = 'refused';
      return end.replaceChildren(make('h2', {}, 'Not carried out'), make('p', {}, make('code', { id: 'report' }, line)), make('p', { class: 'explained' }, code ? page.explained(code[0]) : ''));
    }
    const call = block.calls.find(it => it.number === block.cause);
    const parts = [make('h2', {}, Run.ended(block)), make('p', {}, MEANT[block.outcome] || ''), make('p', {}, make('code', { id: 'report' }, Run.reportOf(block)))];
    if (call) parts.push(make('p', {}, `The cause is call ${call.number}: `, make('code', {}, `m${call.master} ${call.call} : ${call.answer}`)));
    const about = block.code || (block.outcome === 'nothing' ? '' : block.outcome);
    const text = about ? page.explained(about) : '';
    if (text) parts.push(make('details', {}, make('summary', {}, 'What this means'), make('p', { class: 'explained' }, text)));
    end.className = block.outcome;
    return end.replaceChildren(...parts);
  };
  const showPlan = block => {
    const box = byId('plan'), hint = byId('planHint');
    box.replaceChildren();
    if (page.state.at) { hint.textContent = 'The program prints the plan of a first word only.'; return; }
    const told = page.ask(['plan', ...Asked.options(page.state), '--json', '--', page.word().word], Asked.files(page.state));
    const plan = told.errors ? null : JSON.parse(told.output);
    if (!plan || plan.outcome !== 'plan') { hint.textContent = plan ? `${plan.outcome} ${plan.code || ''}` : shown(told.errors); return; }
    if (plan.steps.length > MOST_STEPS) { hint.textContent = `${plan.steps.length} steps: too many to draw.`; return; }
    const { picture, rounds } = Picture.draw(plan, block.calls);
    const again = rounds ? ` Rounds that start missing workers again are drawn once; at most ${rounds} follow.` : '';
    hint.textContent = `${plan.steps.length} steps, at most ${plan.longest} in a run. The way of this run is marked.${again}`;
    box.append(picture);
  };
  const showWords = blocks => {
    const { state } = page;
    byId('row').replaceChildren(...state.words.map((it, i) => make('li', {}, button(`${it.word}${blocks[i] ? `: ${Run.ended(blocks[i])}` : ''}`, () => { state.at = i; state.open = 0; fill(); page.refresh(); byId('row').querySelectorAll('button')[i].focus(); }, { 'class': blocks[i] ? blocks[i].outcome : 'refused', 'aria-pressed': String(i === state.at) }))));
    const row = byId('row'), now = row.querySelector('[aria-pressed=true]');
    if (now) row.scrollTop = Math.max(0, now.offsetTop - row.offsetTop - row.clientHeight / 2);
    byId('removeWord').disabled = state.words.length < 2;
    for (const id of ['explore', 'pairs']) byId(id).disabled = state.at > 0;
    byId('notFirst').hidden = state.at === 0;
  };
  // Shows what is asked, and all that follows from it.
  page.refresh = () => {
    const { state } = page, began = performance.now();
    for (const which of ['A', 'B']) check(which);
    byId('turnsLabel').hidden = !page.word().word.startsWith('USR2');
    byId('command').replaceChildren(...whole(Asked.commandLine(state)));
    history.replaceState(null, '', `#${Asked.toLink(state)}`);
    const told = enacted(state.words.length, ['--json']);
    const blocks = told.errors ? [] : JSON.parse(told.output).blocks;
    const block = blocks[state.at];
    showWords(blocks);
    showEnd(block, told);
    byId('doubt').textContent = '';
    if (!block) { Run.clear(); byId('plan').replaceChildren(); byId('planHint').textContent = ''; return; }
    // (a run of thousands of calls has tables of hundreds of megabytes)
    Run.show(page, block, block.calls.length > MOST_TABLES ? [] : tablesOf(block));
    showPlan(block);
    byId('cost').textContent = `This took ${(performance.now() - began).toFixed(0)} ms.`;
  };
  const fill = () => {
    for (const id of FIELDS) byId(id).value = page.state[id];
    byId('bare').checked = page.state.bare;
    byId('word').value = page.word().word;
    byId('turns').value = page.word().turns;
  };
  const examplesOf = which => {
    const choice = byId(`example${which}`);
    choice.append(make('option', { value: '' }, 'examples'), ...Object.keys(Asked.EXAMPLES).map(name => make('option', {}, name)));
    choice.addEventListener('change', () => {
      if (!choice.value) return;
      const name = choice.value;
      choice.value = '';
      page.take({ [which.toLowerCase()]: Asked.EXAMPLES[name], [`name${which}`]: name });
    });
  };
  const addWord = () => {
    const { state } = page;
    state.words.splice(state.at + 1, 0, Asked.wordOf('HUP'));
    state.at++;
    state.open = 0;
    fill();
    page.refresh();
    byId('word').focus();
  };
  const removeWord = () => {
    const { state } = page;
    state.words.splice(state.at, 1);
    state.at = Math.min(state.at, state.words.length - 1);
    state.open = 0;
    fill();
    page.refresh();
  };
  const listen = () => {
    byId('wordChoices').append(...Asked.WORDS.map(word => make('option', { value: word })));
    for (const which of ['A', 'B']) examplesOf(which);
    for (const id of FIELDS) byId(id).addEventListener('input', () => { page.state[id] = byId(id).value; Counts.clear(); page.refresh(); });
    byId('word').addEventListener('input', () => { Object.assign(page.word(), Asked.wordOf(byId('word').value)); byId('turns').value = ''; page.state.open = 0; Counts.clear(); page.refresh(); });
    byId('turns').addEventListener('input', () => page.change(word => { word.turns = byId('turns').value; }));
    byId('bare').addEventListener('change', () => { page.state.bare = byId('bare').checked; Counts.clear(); page.refresh(); });
    byId('addWord').addEventListener('click', addWord);
    byId('removeWord').addEventListener('click', removeWord);
    byId('explore').addEventListener('click', () => Counts.count(page, 1));
    byId('pairs').addEventListener('click', () => Counts.count(page, 2));
    byId('endExplore').addEventListener('click', Beside.end);
    byId('copy').addEventListener('click', event => copyTo(event.target, byId('command').textContent, byId('command')));
    byId('copyLink').addEventListener('click', event => copyTo(event.target, location.href, null));
    byId('runSection').addEventListener('keydown', event => Run.onKey(page, event));
    addEventListener('hashchange', () => { page.state = Asked.fromLink(location.hash.slice(1)); fill(); page.refresh(); });
    Certificate.listen(page);
  };
  const begin = async () => {
    listen();
    if (location.hash.length > 1) page.state = Asked.fromLink(location.hash.slice(1));
    fill();
    try {
      const { load, fromBase64 } = preforkEngine();
      engine = await load(fromBase64(PREFORK_WASM));
    } catch (fault) {
      byId('end').className = 'refused';
      byId('end').replaceChildren(make('h2', {}, 'This browser does not run the module'), make('p', {}, String(fault)));
      return;
    }
    page.refresh();
    document.body.dataset.ready = 'yes';
  };
  begin();
  return page;
})();

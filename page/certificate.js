'use strict';
// `certify` of pasted blocks, beside the page: whether they are accepted, what explains them, and each run, drawn.
const Certificate = (() => {
  const MOST_BLOCKS = 200, MOST_WORDS = 300;
  // The configurations that came after the second one, and before which blocks a service saw that a new master had ended.
  let later = [], lost = [];
  const FAULT = /^prefork: certify (\d+) (\S+)(?: (\d+))?/;
  const LINE = /^prefork: transcript \S+ (\d+)/;
  const answerOf = told => {
    const [line] = told.errors.split('\n');
    const found = FAULT.exec(line);
    return found ? { line, block: Number(found[1]), code: found[2], entry: Number(found[3] || 0) } : { line, block: 0, code: (LINE.exec(line) || {})[1] ? 'X1' : '', entry: 0 };
  };
  const kindOf = report => (report || 'lost').split(' ')[0];
  const callRow = (call, isWrong) => make('li', { class: isWrong ? 'wrong' : Run.isPlain(call) ? '' : 'fault', value: call.number }, make('code', {}, `m${call.master} ${call.call} : ${call.answer}`), isWrong ? ' is not what a master does here' : '');
  // The words up to a block become the page's own, so that the run is drawn and can be changed.
  const rehearse = (page, blocks, patterns, i) => {
    const words = Blocks.explained(blocks.slice(0, i + 1), patterns);
    page.load(words, byId('recordBare').checked);
    byId('end').scrollIntoView({ block: 'nearest' });
    byId('end').focus();
  };
  // Why the run of the last of these blocks cannot be drawn: the page rehearses one change.
  const hinders = (state, blocks, count) => {
    const changes = blocks.filter(block => Records.goesOver({ ...block, report: block.report || '' })).length;
    if (later.slice(0, Math.max(0, changes - 1)).some(text => text !== state.b)) return ' It comes after a change to another configuration: the page rehearses one.';
    return count > MOST_WORDS ? ` It comes after more than ${MOST_WORDS} words: too many for the page.` : '';
  };
  const itemOf = (page, { blocks, patterns, fault }, block, i) => {
    const lines = patterns ? patterns[i] || [] : [], isWrong = fault && fault.block === i + 1;
    const summary = make('summary', {}, make('strong', {}, block.word === null ? block.report : block.word), ` ${block.word === null ? '' : block.report || 'without a report'}`);
    if (lines.length) summary.append(make('span', { class: lines.every(line => line.startsWith('turns ')) ? 'soft' : 'because' }, ` since ${lines.join(', ')}`));
    const inside = [make('ol', { class: 'made' }, ...block.calls.map(call => callRow(call, isWrong && call.number === fault.entry)))];
    if (patterns && block.word !== null) {
      const count = Blocks.explained(blocks.slice(0, i + 1), patterns).length;
      const why = hinders(page.state, blocks.slice(0, i + 1), count);
      inside.unshift(make('p', {}, button('Draw this run in the page', () => rehearse(page, blocks, patterns, i), { class: 'draw', disabled: why !== '' }), why));
    }
    return make('li', {}, make('details', { class: `block ${kindOf(block.report)}${isWrong ? ' wrong' : ''}`, open: !!isWrong }, summary, ...inside));
  };
  const show = (page, told, text) => {
    byId('endCertify').hidden = true;
    if (!told) return byId('certified').replaceChildren(make('p', { class: 'hint' }, 'Ended.'));
    const blocks = Blocks.read(text), found = { blocks, patterns: null, fault: null };
    const head = make('h3', { tabindex: -1 }), more = make('p', { class: 'hint' }), why = make('p', { class: 'hint explained' });
    if (told.status === 0) {
      found.patterns = JSON.parse(told.output).patterns;
      const wrong = found.patterns.filter(lines => lines.some(line => !line.startsWith('turns '))).length;
      head.textContent = `Accepted: ${many(found.patterns.length, 'block')}`;
      head.className = 'good';
      more.textContent = wrong ? `Failures and exits explain ${wrong} of them.` : 'Nothing went wrong in them.';
    } else if (lost.includes(answerOf(told).block)) {
      const { block } = answerOf(told);
      head.textContent = `Accepted: ${many(block - 1, 'block')}`;
      head.className = 'good';
      more.textContent = `Before block ${block} the new master had ended. The service saw that, and started the next master, which has a record of its own.`;
    } else {
      found.fault = answerOf(told);
      head.textContent = told.status === 5 ? 'Not accepted' : 'Not read';
      head.className = 'bad';
      more.append(make('code', {}, found.fault.line));
      why.textContent = page.explained(found.fault.code);
    }
    const rest = blocks.length - MOST_BLOCKS;
    byId('certified').replaceChildren(head, more, why, make('ol', { class: 'blocks' }, ...blocks.slice(0, MOST_BLOCKS).map((block, i) => itemOf(page, found, block, i))), rest > 0 ? `and ${many(rest, 'more block')}` : '');
    return head.focus();
  };
  const certify = async page => {
    const { state } = page, text = byId('record').value;
    const start = { ...state, bare: byId('recordBare').checked };
    const [words, files] = Asked.certifying(start, later);
    const line = make('p', { class: 'hint', role: 'status' }, 'Certifying ..');
    byId('certified').replaceChildren(line);
    if (files.length > Asked.MOST_FILES) { line.textContent = `It has ${files.length} different configurations, and the page has room for ${Asked.MOST_FILES}: use prefork-ctl certify.`; return; }
    byId('endCertify').hidden = false;
    const running = clock(line, count => `Certifying for ${count} s.`);
    const told = await Beside.ask([words, files, text], () => {});
    running.stop();
    show(page, told, text);
  };
  // A text for each configuration that came later.
  const showLater = () => byId('later').replaceChildren(...later.map((text, i) => {
    const area = make('textarea', { rows: 3, spellcheck: 'false', 'aria-label': `configuration ${i + 3}` });
    area.value = text;
    area.addEventListener('input', () => { later[i] = area.value; });
    const remove = button('Remove', () => { later.splice(i, 1); showLater(); byId('addLater').focus(); }, { 'aria-label': `remove configuration ${i + 3}` });
    return make('li', { value: i + 3 }, area, remove);
  }));
  const addLater = page => {
    later.push(later.length ? later[later.length - 1] : page.state.b);
    showLater();
    byId('later').querySelectorAll('textarea')[later.length - 1].focus();
  };
  // The files of a master's record, in their places.
  const take = async (page, chosen) => {
    const found = Records.read(await Promise.all(chosen.map(async file => [file.name, await file.text()])));
    const told = found.missing || (found.hasGap ? 'Blocks after these could not be written.' : 'The files are in their places.');
    byId('certified').replaceChildren(make('p', { class: found.missing ? 'bad' : 'hint', role: 'status' }, told));
    if (found.missing) return;
    const [b, ...others] = found.goals;
    later = others;
    lost = found.lost;
    byId('record').value = found.text;
    byId('recordBare').checked = true;
    showLater();
    page.take({ a: found.from, b, nameA: 'from.toml', nameB: 'to.toml' });
  };
  // The page's own run as a record, to see what `certify` says of it.
  const example = page => {
    const told = page.ask(...Asked.enacting(page.state, page.state.words.length));
    byId('record').value = told.output;
    byId('recordBare').checked = page.state.bare;
    later = [];
    lost = [];
    showLater();
  };
  const listen = page => {
    byId('certify').addEventListener('click', () => certify(page));
    byId('endCertify').addEventListener('click', Beside.end);
    byId('recordExample').addEventListener('click', () => example(page));
    byId('record').addEventListener('input', () => { lost = []; });
    byId('addLater').addEventListener('click', () => addLater(page));
    byId('recordFiles').addEventListener('change', () => take(page, [...byId('recordFiles').files]));
  };
  return { listen };
})();

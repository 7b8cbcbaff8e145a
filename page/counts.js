'use strict';
// `explore` of the word, beside the page: how its runs end, and each pattern that is named, as a button that loads it.
const Counts = (() => {
  let seconds = null;
  const itemOf = (page, line) => {
    const under = line.indexOf(' under ');
    if (under < 0) return make('li', {}, line);
    const text = line.slice(under + ' under '.length);
    const lines = text === 'no event' ? [] : text.split(', ');
    const turns = lines.filter(it => it.startsWith('turns ')).map(it => it.slice('turns '.length))[0];
    const events = lines.filter(it => !it.startsWith('turns ')).map(Asked.eventOf);
    const load = () => {
      page.change(word => { word.events = events; if (turns !== undefined) word.turns = turns; });
      byId('end').scrollIntoView({ block: 'nearest' });
      byId('end').focus();
    };
    return make('li', {}, `${line.slice(0, under)} `, button(`show: ${text}`, load));
  };
  const show = (page, told) => {
    byId('endExplore').hidden = true;
    if (!told) return byId('explored').replaceChildren(make('p', { class: 'hint' }, 'Ended.'));
    if (!told.output) return byId('explored').replaceChildren(make('p', { class: 'bad' }, told.errors.trim()));
    const lines = told.output.trimEnd().split('\n');
    return byId('explored').replaceChildren(make('ul', { class: 'explored' }, ...lines.map(line => itemOf(page, line))));
  };
  // All runs with at most this number of events, from the start: the word must be the first one.
  const count = async (page, events) => {
    const { state } = page, word = page.word();
    const turns = word.turns !== '' ? ['--turns', word.turns] : [];
    const words = ['explore', ...Asked.options(state), ...Asked.held(state), '--events', String(events), ...turns, '--progress', '--', word.word];
    const line = make('p', { class: 'hint', role: 'status' }, 'Counting ..');
    let runs = '';
    byId('explored').replaceChildren(line);
    byId('endExplore').hidden = false;
    if (seconds) seconds.stop();
    const mine = seconds = clock(line, count => `Counting for ${count} s. ${runs}`);
    const told = await Beside.ask([words, Asked.files(state)], text => { runs = text.replace('prefork: ', '').trim(); mine.tell(); });
    mine.stop();
    if (seconds === mine) show(page, told);
  };
  const clear = () => byId('explored').replaceChildren();
  return { count, clear };
})();

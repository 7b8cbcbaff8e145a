'use strict';
// What the page asks the program: the state, its options and patterns, its command line, and its link.
const Asked = (() => {
  const EXAMPLES = {
    'a.toml': 'listeners = ["0.0.0.0:8080"]\nworkers = 3\npid = "/run/app.pid"\n',
    'b.toml': 'listeners = ["0.0.0.0:8080", "0.0.0.0:9090"]\nworkers = 2\npid = "/run/app.pid"\n',
    'upgrade.toml': 'workers = 2\npid = "/run/app.pid"\n',
    'groups.toml': 'retries = 1\npid = "/run/app.pid"\n\n[[groups]]\nlisteners = ["0.0.0.0:8080"]\nworkers = 3\n\n[[groups]]\nlisteners = ["/run/admin.sock"]\n',
    'tcp.toml': 'listeners = ["0.0.0.0:8080"]\nretries = 0\n',
    'unix.toml': 'listeners = ["/run/app.sock"]\nretries = 0\n',
  };
  const WORDS = ['HUP', 'USR2', 'USR2 attended', 'TTIN', 'TTOU', 'WINCH', 'USR1', 'QUIT', 'INT', 'tick 0'];
  // The fates of each call.
  const FATES = {
    'open': ['in-use', 'too-many', 'denied', 'no-memory'], 'fork': ['again', 'no-memory'], 'await-ready': ['late'],
    'await-gone': ['late'], 'spawn-master': ['again', 'no-memory', 'no-image'], 'adopt': ['refused'],
    'write-pid': ['io-fault'], 'move-pid': ['io-fault'], 'remove-pid': ['io-fault'], 'ask': ['back'],
  };
  // The module has room for this number of files.
  const MOST_FILES = 64;
  const wordOf = (word, events = [], turns = '') => ({ word, turns, events });
  // `at` is the word whose run is shown, and `open` the call whose choices are.
  const start = () => ({
    a: EXAMPLES['a.toml'], b: EXAMPLES['b.toml'], nameA: 'a.toml', nameB: 'b.toml',
    words: [wordOf('HUP')], held: '', workers: '', bare: false, at: 0, open: 0,
  });
  // The second file has a name of its own where its text is another one.
  const names = state => [state.nameA, state.nameB === state.nameA && state.b !== state.a ? `next-${state.nameB}` : state.nameB];
  const files = state => { const [a, b] = names(state); return [[a, state.a], [b, state.b]]; };
  const options = state => {
    const [a, b] = names(state);
    const words = ['--from', a, '--to', b];
    if (state.workers !== '') words.push('--workers', state.workers);
    if (state.bare) words.push('--bare');
    return words;
  };
  const held = state => state.held === '' ? [] : ['--held', state.held];
  // How `certify` is asked of a record that goes over to the second file, and then to these configurations.
  const certifying = (state, later) => {
    const [, b] = names(state);
    const known = new Map([[state.b, b]]);
    for (const text of later) if (!known.has(text)) known.set(text, `later-${known.size}-${b}`);
    const goals = later.flatMap(text => ['--to', known.get(text)]);
    const others = [...known].slice(1).map(([text, name]) => [name, text]);
    return [['certify', ...options(state), ...goals, ...held(state), '--json'], [...files(state), ...others]];
  };
  const inOrder = events => [...events].sort((p, q) => p.n - q.n || (p.fate ? 1 : 0) - (q.fate ? 1 : 0));
  const lineOf = event => event.fate ? `${event.n} fail ${event.fate}` : `${event.n} exit ${event.name}`;
  const eventOf = line => {
    const [n, kind, what] = line.split(' ');
    return kind === 'fail' ? { n: Number(n), fate: what } : { n: Number(n), name: what };
  };
  // The lines of a word's section.
  const section = word => [...(word.turns !== '' ? [`turns ${word.turns}`] : []), ...inOrder(word.events).map(lineOf)];
  // The lines of a pattern for these words; the sections at the end that are empty are left out.
  const patternLines = words => {
    const sections = words.map(section);
    while (sections.length && !sections[sections.length - 1].length) sections.pop();
    return sections.flatMap((lines, i) => i ? ['next', ...lines] : lines);
  };
  const patternOf = words => patternLines(words).map(line => `${line}\n`).join('');
  const wordsOf = state => ['--', ...state.words.map(it => it.word)];
  // How the program is asked for the blocks of the first words, with the events of the last of them changed or not.
  const enacting = (state, count, more = []) => {
    const first = { ...state, words: state.words.slice(0, count) };
    return [['enact', ...options(state), ...held(state), ...more, ...wordsOf(first)], files(state), patternOf(first.words)];
  };
  const quoted = word => /^[\w.\/:,=-]+$/.test(word) ? word : `'${word.replace(/'/g, '\'\\\'\'')}'`;
  // The line for a shell that gives the same. It needs the two files under their names.
  const commandLine = state => {
    const isPlain = state.words.every(it => !it.word.startsWith('-'));
    const words = isPlain ? state.words.map(it => it.word) : wordsOf(state);
    const line = ['prefork', 'enact', ...options(state), ...held(state), ...words].map(quoted).join(' ');
    const lines = patternLines(state.words);
    return lines.length ? `printf '%s\\n' ${lines.map(quoted).join(' ')} | ${line}` : `${line} </dev/null`;
  };
  const toLink = state => {
    const bytes = new TextEncoder().encode(JSON.stringify(state));
    return btoa(Array.from(bytes, it => String.fromCharCode(it)).join('')).replace(/\+/g, '-').replace(/\//g, '_').replace(/=+$/, '');
  };
  const isEvent = it => it && Number.isInteger(it.n) && (typeof it.fate === 'string' || typeof it.name === 'string');
  const isWord = it => it && typeof it.word === 'string' && typeof it.turns === 'string' && Array.isArray(it.events);
  // The state of a link; what cannot be read of it is as at the start.
  const fromLink = text => {
    const state = start();
    let kept;
    try {
      const bytes = Uint8Array.from(atob(text.replace(/-/g, '+').replace(/_/g, '/')), it => it.charCodeAt(0));
      kept = JSON.parse(new TextDecoder().decode(bytes)) || {};
    } catch (fault) {
      return state;
    }
    for (const key of Object.keys(state)) if (key !== 'words' && typeof kept[key] === typeof state[key]) state[key] = kept[key];
    const words = (Array.isArray(kept.words) ? kept.words : []).filter(isWord);
    if (words.length) state.words = words.map(it => wordOf(it.word, it.events.filter(isEvent), it.turns));
    state.at = Math.min(Math.max(0, state.at | 0), state.words.length - 1);
    return state;
  };
  return { EXAMPLES, WORDS, FATES, MOST_FILES, start, wordOf, names, files, options, held, certifying, lineOf, eventOf, inOrder, section, patternOf, enacting, commandLine, toLink, fromLink };
})();
if (typeof module !== 'undefined') module.exports = Asked;

'use strict';
// node page/tests/states.js PROGRAM SEED COUNT [MODULE]: random states of the page. For each: the command line that the page
// shows gives what the page asks for; the link gives the state back; the last table that is drawn is the program's; the way
// that is marked in the plan ends as the report says, arrows lead downwards, and none passes through a box; what `certify`
// makes of the blocks gives them again. With MODULE (prefork_wasm.js) it answers as the program does. Prints what is wrong,
// and last 'N passed, M failed'.
const { spawnSync } = require('child_process');
const fs = require('fs');
const os = require('os');
const path = require('path');
const Asked = require('../asked.js');
const Tables = require('../tables.js');
const Plan = require('../plan.js');
const Places = require('../places.js');
const Blocks = require('../blocks.js');
const { load } = require('./module.js');
const { diceOf, stateOf } = require('./dice.js');
const [program, seed, count, moduleFile] = process.argv.slice(2);
const MOST_SECONDS = 300;
const room = fs.mkdtempSync(path.join(os.tmpdir(), 'page-states-'));
fs.symlinkSync(path.resolve(program), path.join(room, 'prefork'));

const layOut = files => {
  const folder = fs.mkdtempSync(path.join(room, 'run-'));
  for (const [name, text] of files) fs.writeFileSync(path.join(folder, name), text);
  return folder;
};
const run = (command, words, files, input) => {
  // (a program that does not read its input may end before all of it is written to a pipe)
  const cwd = layOut(files), given = path.join(room, 'input');
  fs.writeFileSync(given, input);
  const from = fs.openSync(given);
  const env = { ...process.env, PATH: `${room}:${process.env.PATH}` };
  const told = spawnSync(command, words, { cwd, env, stdio: [from, 'pipe', 'pipe'], encoding: 'utf8', maxBuffer: 1 << 28, timeout: MOST_SECONDS * 1000 });
  fs.closeSync(from);
  fs.rmSync(cwd, { recursive: true });
  if (told.error) throw told.error;
  return { status: told.status, output: told.stdout, errors: told.stderr };
};
const ask = (words, files, input = '') => run('prefork', words, files, input);
const blocksOf = (state, length) => {
  const told = ask(...Asked.enacting(state, length, ['--json']));
  // (a fault has no blocks, or comes below those before it)
  const [first] = told.output.split('\n');
  return (first && JSON.parse(first).blocks) || [];
};
const isSame = (p, q) => JSON.stringify(p) === JSON.stringify(q);

// What is wrong with each part of a state.
const CHECKS = {
  'command line': (state, told) => isSame(run('sh', ['-c', Asked.commandLine(state)], Asked.files(state), ''), told),
  'link': state => isSame(Asked.fromLink(Asked.toLink(state)), state),
  'tables': (state, told) => {
    if (told.errors) return true;
    const words = ['enact', ...Asked.options(state), ...Asked.held(state), '--state', '--'];
    const after = list => Tables.read(ask([...words, ...list.map(it => it.word)], Asked.files(state), Asked.patternOf(list)).output);
    const first = state.at ? after(state.words.slice(0, state.at)) : after([Asked.wordOf('beat 1023 0')]);
    const block = blocksOf(state, state.at + 1)[state.at];
    const tables = Tables.drawn(first, block.calls, Asked.inOrder(state.words[state.at].events));
    return Tables.seen(tables[tables.length - 1]) === Tables.seen(after(state.words.slice(0, state.at + 1)));
  },
  'plan': (state, told) => {
    const [word] = state.words;
    const printed = told.errors ? { errors: 'none' } : ask(['plan', ...Asked.options(state), '--json', '--', word.word], Asked.files(state));
    if (printed.errors) return true;
    const plan = JSON.parse(printed.output), [block] = blocksOf(state, 1);
    if (plan.outcome !== 'plan' || block.outcome === 'refused' || block.outcome === 'lost') return true;
    const { nodes, arrows, at } = Plan.layout(plan), { seen, taken } = Plan.passed(plan, block.calls, at);
    const end = block.side ? `${block.outcome}-${block.side}` : block.outcome;
    const drawn = new Set(arrows.map(arrow => `${arrow.from}>${arrow.to}`)), places = [...nodes.values()];
    const tracks = Places.order(places);
    const isFree = arrow => Places.points(arrow, tracks).every((point, i, all) => !i || places.every(node => !Places.crosses(all[i - 1], point, node)));
    return seen.has(end) && [...taken].every(it => drawn.has(it)) && new Set(places.map(it => `${it.row} ${it.column}`)).size === places.length
      && arrows.every(it => isFree(it) && (it.isBack || it.target.row > it.source.row));
  },
  'certificate': (state, told) => {
    const start = { ...state, words: [] };
    const words = ['certify', ...Asked.options(start), ...Asked.held(start), '--json'];
    const certified = told.errors ? { status: 1 } : ask(words, Asked.files(state), told.output);
    // (which pattern was refused with E4 is in no block)
    if (certified.status || /^refused E4 /m.test(told.output)) return true;
    const blocks = Blocks.read(told.output);
    const again = { ...state, words: Blocks.explained(blocks, JSON.parse(certified.output).patterns) };
    return blocks.length === state.words.length && ask(...Asked.enacting(again, again.words.length)).output === told.output;
  },
};
(async () => {
  const engine = moduleFile ? await load(moduleFile) : null;
  const dice = diceOf(Number(seed));
  let passed = 0, failed = 0;
  for (let i = 0; i < Number(count); i++) {
    const state = stateOf(dice, so => (blocksOf(so, so.words.length)[so.words.length - 1] || { calls: [] }).calls);
    const asked = Asked.enacting(state, state.words.length), told = ask(...asked);
    const wrong = Object.entries(CHECKS).filter(([, holds]) => !holds(state, told)).map(([name]) => name);
    if (engine && !isSame(engine.answer(...asked), told)) wrong.push('module');
    if (wrong.length) { failed++; console.log(`state ${i}: ${wrong.join(', ')}: ${JSON.stringify(state)}`); } else passed++;
  }
  fs.rmSync(room, { recursive: true });
  console.log(`${passed} passed, ${failed} failed`);
  process.exitCode = failed || !passed ? 1 : 0;
})();

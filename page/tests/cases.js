'use strict';
// node page/tests/cases.js MODULE: the cases of tests/cases that need no process, answered by the page's module
// (prefork_wasm.js). Prints what
// differs and then 'N passed, M failed', and ends with status 1 if any failed.
const { execFileSync } = require('child_process');
const path = require('path');
const { load } = require('./module.js');
const list = path.join(__dirname, '..', '..', 'library', 'cases');
const cases = JSON.parse(execFileSync(list, ['--json'], { maxBuffer: 1 << 26 }));
const bytesOf = text => Uint8Array.from(text, it => it.charCodeAt(0));
const shown = text => new TextDecoder().decode(bytesOf(text));
(async () => {
  let lines = [], passed = 0, failed = 0;
  const program = await load(process.argv[2], line => lines.push(line));
  for (const [name, words, files, input, [status, output, errors]] of cases) {
    lines = [];
    const told = program.answer(words.map(bytesOf), files.map(pair => pair.map(bytesOf)), bytesOf(input));
    const isSame = told.status === status && told.output === shown(output) && told.errors === shown(errors) && lines.join('') === told.errors;
    if (isSame) passed++;
    else { failed++; console.log(name, words, told); }
  }
  console.log(`${passed} passed, ${failed} failed`);
  process.exitCode = failed ? 1 : 0;
})();

'use strict';
// The record of one master, as a service keeps it in a folder: `from.toml`, the parts `blocks.1` and on, and `to.K.toml` where
// block K goes over to another configuration. No element of a page is made here.
const Records = (() => {
  const CHANGES = ['HUP', 'USR2', 'USR2 attended'];
  const OUTCOMES = ['done', 'rolled-back', 'degraded', 'lost', 'refused', 'unread', 'nothing'];
  const GAP = /^blocks\.\d+\.gap$/;
  const numberOf = name => Number(name.split('.')[1]);
  // The texts of the files whose names are such, by their numbers.
  const numbered = (files, names) => files.filter(([name]) => names.test(name)).map(([name, text]) => [numberOf(name), text]).sort(([p], [q]) => p - q);
  // The blocks of a text; what is not complete at the end is left out.
  const split = text => {
    const blocks = [];
    let lines = [];
    for (const line of text.split('\n').slice(0, -1)) {
      lines.push(line);
      if (!OUTCOMES.includes(line.split(' ')[0])) continue;
      blocks.push({ word: lines[0].startsWith('word ') ? lines[0].slice('word '.length) : null, report: line, text: `${lines.join('\n')}\n` });
      lines = [];
    }
    return blocks;
  };
  // The service refuses a word before its master acts where the file is wrong: `certify` would carry it out.
  const isRefused = block => block.report.startsWith('unread') || /^refused (?:C|W4)/.test(block.report);
  const goesOver = block => CHANGES.includes(block.word) && !/^(?:refused|nothing)/.test(block.report);
  // What is certified of these files, pairs of a name and a text: the configuration of the start, those that its words went
  // over to, its blocks, and before which of these a new master had ended; or what is missing.
  const read = files => {
    const [from] = files.filter(([name]) => name === 'from.toml').map(([, text]) => text);
    const gap = Math.min(...numbered(files, GAP).map(([number]) => number));
    const parts = numbered(files, /^blocks\.\d+$/).filter(([number]) => number < gap), targets = numbered(files, /^to\.\d+\.toml$/);
    if (from === undefined) return { missing: 'The file from.toml is missing: choose all files of one folder of records.' };
    if (!parts.length || parts[0][0] !== 1) return { missing: 'The file blocks.1 is missing: the beginning of this record is no longer there.' };
    const blocks = split(parts.map(([, text]) => text).join(''));
    const targetAt = number => targets.filter(([first]) => first <= number).map(([, text]) => text).pop() ?? from;
    const goals = blocks.flatMap((block, i) => goesOver(block) ? [targetAt(i + 1)] : []);
    while (goals.length > 1 && goals[goals.length - 1] === goals[goals.length - 2]) goals.pop();
    const ended = new Set(numbered(files, /^lost\.\d+$/).map(([number]) => number));
    const chosen = blocks.map((block, i) => ({ ...block, isLost: ended.has(i + 1) })).filter(block => !isRefused(block));
    return {
      from, goals: goals.length ? goals : [from], text: chosen.map(block => block.text).join(''),
      lost: chosen.flatMap((block, i) => block.isLost ? [i + 1] : []), hasGap: gap < Infinity,
    };
  };
  return { read, goesOver };
})();
if (typeof module !== 'undefined') module.exports = Records;

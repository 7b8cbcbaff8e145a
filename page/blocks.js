'use strict';
// Blocks as `enact` and `supervise` print them, read for a picture: the program alone says whether they are right.
const Blocks = (() => {
  const { wordOf: asWord, eventOf } = typeof Asked === 'undefined' ? require('./asked.js') : Asked;
  const CALL = /^(\d+) m(\d+) (.*) : (.*)$/;
  const blockOf = line => ({ word: line.startsWith('word ') ? line.slice('word '.length) : null, calls: [], report: line.startsWith('word ') ? null : line });
  const read = text => {
    const blocks = [];
    for (const line of text.split('\n')) {
      const last = blocks[blocks.length - 1], call = CALL.exec(line);
      if (line.startsWith('word ') || line.startsWith('unread ')) blocks.push(blockOf(line));
      else if (call && last) last.calls.push({ number: Number(call[1]), master: Number(call[2]), call: call[3], answer: call[4] });
      else if (line !== '' && last) last.report = line;
    }
    return blocks;
  };
  // A word with the turns and events of its section.
  const wordOf = (block, lines) => {
    const turns = lines.filter(it => it.startsWith('turns ')).map(it => it.slice('turns '.length))[0] || '';
    return asWord(block.word, lines.filter(it => !it.startsWith('turns ')).map(eventOf), turns);
  };
  // The words and events that lead to the first blocks, of those that `certify --json` explains.
  const explained = (blocks, patterns) => blocks.map((block, i) => [block, patterns[i] || []]).filter(([block]) => block.word !== null).map(([block, lines]) => wordOf(block, lines));
  return { read, explained };
})();
if (typeof module !== 'undefined') module.exports = Blocks;

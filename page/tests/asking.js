'use strict';
// In the place of engine.js, where the module is not needed: each question is put to a server on this machine
// (ci/browser/asked.py), which asks the program in a process. So what the page itself does can be tested without the module.
function preforkEngine() {
  const answer = (words, files = [], input = '') => {
    const request = new XMLHttpRequest();
    // (the address of a worker has the origin of its page)
    request.open('POST', `${new URL(location.href.replace(/^blob:/, '')).origin}/answer`, false);
    request.send(JSON.stringify({ words, files, input }));
    return JSON.parse(request.responseText);
  };
  const load = async (bytes, onLine) => ({
    answer: (...asked) => {
      const told = answer(...asked);
      if (onLine) told.errors.split('\n').filter(line => line).forEach(line => onLine(`${line}\n`));
      return told;
    },
  });
  return { load, fromBase64: () => new Uint8Array() };
}

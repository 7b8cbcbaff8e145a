'use strict';
// Calls the program's module: words and texts go into its memory, and what the program would print comes out of it. The
// function is whole in itself, so that its text can be the start of a worker.
function preforkEngine() {
  const encoder = new TextEncoder();
  const decoder = new TextDecoder();
  const bytesOf = text => typeof text === 'string' ? encoder.encode(text) : text;
  const joined = parts => {
    const all = new Uint8Array(parts.reduce((sum, part) => sum + part.length, 0));
    let at = 0;
    for (const part of parts) { all.set(part, at); at += part.length; }
    return all;
  };
  const fromBase64 = text => Uint8Array.from(atob(text), it => it.charCodeAt(0));
  class Engine {
    // `onLine` hears what the program writes to standard error, while it runs.
    constructor(compiled, onLine) {
      this.compiled = compiled;
      this.onLine = onLine || (() => {});
      this.start();
    }
    start() {
      const told = (at, length) => this.onLine(this.text(at, length));
      this.it = new WebAssembly.Instance(this.compiled, { page: { told } }).exports;
    }
    text(at, length) {
      return decoder.decode(new Uint8Array(this.it.memory.buffer, Number(at), Number(length)));
    }
    put(bytes) {
      const at = this.it.room(BigInt(bytes.length || 1));
      if (!at) throw new Error('the browser gives the program no memory');
      new Uint8Array(this.it.memory.buffer).set(bytes, Number(at));
      return [at, BigInt(bytes.length)];
    }
    // What `prefork WORDS` prints of these files (pairs of a name and a text) and this input, and its exit status. After a
    // failure of the module itself the next call has a new one.
    answer(words, files = [], input = '') {
      const line = joined(['prefork', ...words].flatMap(word => [bytesOf(word), new Uint8Array(1)]));
      const texts = [line, input, ...files.flat()];
      try {
        const given = texts.map(text => this.put(bytesOf(text)));
        given.forEach(([at, length], i) => this.it.prefork_give(i, at, length));
        const status = this.it.prefork_run();
        const wrote = which => this.text(this.it.prefork_wrote(which), this.it.prefork_wrote_length(which));
        const told = { status, output: wrote(0), errors: wrote(1) };
        for (const [at] of given) this.it.give_back(at);
        return told;
      } catch (fault) {
        this.start();
        return { status: -1, output: '', errors: `the module has failed: ${fault.message}\n` };
      }
    }
  }
  const load = async (bytes, onLine) => new Engine(await WebAssembly.compile(bytes), onLine);
  return { load, fromBase64 };
}
if (typeof module !== 'undefined') module.exports = preforkEngine();

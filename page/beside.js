'use strict';
// Runs the program beside the page, so that a long count or certificate blocks nothing. One question at a time.
const Beside = (() => {
  let worker = null;
  let waiting = null;
  // What runs in the worker, after the text of the engine.
  const inside = () => {
    let engine = null;
    onmessage = async ({ data }) => {
      try {
        const onLine = line => postMessage({ line });
        engine = engine || await preforkEngine().load(data.bytes, onLine);
        postMessage({ told: engine.answer(...data.asked) });
      } catch (fault) {
        postMessage({ told: { status: -1, output: '', errors: `${fault}\n` } });
      }
    };
  };
  const start = () => {
    const text = `'use strict';\n${preforkEngine}\n(${inside})();\n`;
    const address = URL.createObjectURL(new Blob([text], { type: 'text/javascript' }));
    worker = new Worker(address);
    URL.revokeObjectURL(address);
  };
  // Ends what runs; the next question starts a worker again.
  const end = () => {
    if (worker) worker.terminate();
    worker = null;
    if (waiting) waiting(null);
    waiting = null;
  };
  // What the program answers; null if it was ended. `onLine` hears its standard error meanwhile.
  const ask = (asked, onLine) => new Promise(resolve => {
    if (waiting) end();
    if (!worker) start();
    waiting = resolve;
    worker.onmessage = ({ data }) => {
      if (data.line !== undefined) return onLine(data.line);
      waiting = null;
      return resolve(data.told);
    };
    worker.onerror = fault => {
      const why = fault.message || 'no worker can be started here';
      waiting = null;
      end();
      resolve({ status: -1, output: '', errors: `${why}\n` });
    };
    worker.postMessage({ bytes: preforkEngine().fromBase64(PREFORK_WASM), asked });
  });
  return { ask, end };
})();

'use strict';
// The module of the page, loaded in Node from prefork_wasm.js.
const fs = require('fs');
const engine = require('../engine.js');
const load = (file, onLine) => {
  const text = fs.readFileSync(file, 'utf8');
  return engine.load(engine.fromBase64(text.slice(text.indexOf("= '") + 3, text.lastIndexOf("'"))), onLine);
};
module.exports = { load };

'use strict';
// node page/tests/records.js: reads folders of records from its input, as JSON: for each the pairs of a name and a text; and
// prints what the page makes of them.
const fs = require('fs');
const Records = require('../records.js');
console.log(JSON.stringify(JSON.parse(fs.readFileSync(0, 'utf8')).map(Records.read)));

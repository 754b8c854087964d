// Prints what `iimwire check` prints for a file and, after each envelope, its headline if it has
// one.
//
//   node bindings/examples/check.js ./iim.node FILE
//
// The first lines of addon.c, beside this file, show how to build iim.node.
const { readFileSync, writeSync } = require('node:fs');
const { resolve } = require('node:path');

const [module_, name] = process.argv.slice(2);
const iim = require(resolve(module_));
let rest = readFileSync(name);
for (let number = 1; rest.length > 0; number++) {
  const { octets, headline, refusal } = iim.read(rest);
  if (refusal !== undefined) {
    writeSync(1, `${number} ${refusal}\n`);
    process.exit(1);
  }
  writeSync(1, `${number} accepted ${octets} octets\n`);
  if (headline !== null) {
    writeSync(1, Buffer.concat([headline, Buffer.from('\n')]));
  }
  rest = rest.subarray(octets);
}

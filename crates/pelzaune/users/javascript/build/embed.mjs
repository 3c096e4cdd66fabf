// Prints an ES module that contains a module of WebAssembly, so that an importer needs no second file.
//
//     node embed.mjs MODULE.wasm > MODULE.js

import { readFileSync } from 'node:fs';

const base64 = readFileSync(process.argv[2]).toString('base64');
process.stdout.write(`// pelzaune.wasm in base64, which build/embed.mjs writes.
const base64 = '${base64}';

/** The bytes of the module. */
export function bytes() {
  return Uint8Array.from(atob(base64), (character) => character.charCodeAt(0));
}
`);

// Runs all tests in Node, over the module of the package.
//
//     node node.mjs PACKAGE
//     node --experimental-wasm-memory64 node.mjs PACKAGE pelzaune64.wasm
//
// The second runs them over another module of its folder. Newer engines need no flag for it.

import { existsSync, readFileSync } from 'node:fs';
import { register } from 'node:module';
import { resolve } from 'node:path';
import { pathToFileURL } from 'node:url';
import { run } from './all.mjs';

const folder = pathToFileURL(`${resolve(process.argv[2])}/`);
const name = process.argv[3] ?? 'pelzaune.wasm';
const { createParser } = await import(new URL('parser.js', folder));
const ready = await import(new URL('index.js', folder));
const module = new WebAssembly.Module(readFileSync(new URL(name, folder)));
const { passed, failed } = run(module, createParser, ready);

// The module exports what the header declares. Where the tests are without the library, there is no header.
const header = new URL('../../../include/pelzaune.h', import.meta.url);
if (existsSync(header)) {
  const declared = [...readFileSync(header, 'utf8').matchAll(/^\w+ (pelzaune_\w+)\(/gm)].map(([, found]) => found).sort();
  const exported = WebAssembly.Module.exports(module).map((it) => it.name).filter((it) => it.startsWith('pelzaune_')).sort();
  if (String(exported) !== String(declared)) failed.push(`the module exports ${exported}, and the header declares ${declared}`);
}

// An edge worker imports a module of WebAssembly by its name. This makes Node do so.
const loader = `export const load = (url, context, next) => (!url.endsWith('.wasm') ? next(url, context) : {
  format: 'module', shortCircuit: true,
  source: \`import { readFileSync } from 'node:fs'; export default new WebAssembly.Module(readFileSync(new URL('\${url}')));\`,
});`;
register(`data:text/javascript,${encodeURIComponent(loader)}`);
const edge = await import(new URL('workerd.js', folder));
const isSame = Object.keys(ready).every((key) => key in edge) && edge.parse('1985-04-12T23:20:50Z').year === 1985;
if (!isSame) failed.push('workerd.js has other calls');

// The types name what the package exports.
const types = readFileSync(new URL('index.d.ts', folder), 'utf8');
const typed = [...types.matchAll(/^export (?:const|class) (\w+)/gm)].map(([, found]) => found).sort();
if (String(typed) !== String(Object.keys(ready).sort())) failed.push(`the types have ${typed}, and the package ${Object.keys(ready)}`);
for (const it of failed.slice(0, 20)) console.log(it);
console.log(`${name} in Node ${process.version}: ${passed} passed, ${failed.length} failed`);
process.exit(failed.length === 0 && passed > 0 ? 0 : 1);

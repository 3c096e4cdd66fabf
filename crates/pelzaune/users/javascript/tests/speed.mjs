// Prints a table of the nanoseconds of calls in Node and in the installed browsers, beside Date and Temporal.
//
//     node speed.mjs PACKAGE
//
// Each number is the least of many short runs in turn, so that each call has a chance on an idle machine.

import { readFileSync } from 'node:fs';
import { dirname, resolve } from 'node:path';
import { fileURLToPath, pathToFileURL } from 'node:url';
import { isInstalled, NAMES, withBrowser } from './browsers/browser.mjs';
import { withServer } from './browsers/server.mjs';
import { run } from './timing.mjs';

const here = dirname(fileURLToPath(import.meta.url));
const folder = resolve(process.argv[2]);

const columns = new Map();
const ready = await import(pathToFileURL(`${folder}/index.js`));
const module = new WebAssembly.Module(readFileSync(`${folder}/pelzaune.wasm`));
columns.set(`Node ${process.versions.node}`, run(module, undefined, ready));
await withServer({ package: folder, tests: here }, async (address) => {
  for (const { name, program } of NAMES) {
    if (!isInstalled(program)) {
      console.log(`skipped: ${name}, since there is no ${program}`);
      continue;
    }
    await withBrowser(name, async (tab) => {
      await tab.open(`${address}/tests/browsers/run.html?tests=/tests/timing.mjs&module=pelzaune.wasm`);
      const version = /(?:Chrome|Firefox)\/(\d+)/.exec(await tab.evaluate('navigator.userAgent'))[1];
      columns.set(`${name[0].toUpperCase()}${name.slice(1)} ${version}`, await tab.evaluate('window.result'));
    });
  }
});

const row = (cells) => console.log(`| ${cells.join(' | ')} |`);
const all = [...columns.values()];
row(['What', ...columns.keys()]);
row(['---', ...all.map(() => '---:')]);
// Node of Debian has no Temporal, so the longest column has all rows.
const [longest] = [...all].sort((first, second) => Object.keys(second).length - Object.keys(first).length);
for (const what of Object.keys(longest)) row([what, ...all.map((its) => its[what] ?? '–')]);

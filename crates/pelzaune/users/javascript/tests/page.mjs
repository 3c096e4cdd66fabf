// Tests the page in each installed browser, as a file on a disk.
//
//     node page.mjs PAGE.html [SCREENSHOT.png]
//
// With a second argument it also writes the picture that README shows, in Chromium, if the tests pass.

import { closeSync, openSync, writeFileSync, writeSync } from 'node:fs';
import { mkdtemp, rm } from 'node:fs/promises';
import { tmpdir } from 'node:os';
import { join, resolve } from 'node:path';
import { pathToFileURL } from 'node:url';
import { isInstalled, NAMES, TIME_ZONE, withBrowser } from './browsers/browser.mjs';
import { Checks } from './checks.mjs';
import * as tests from './page_tests.mjs';

const page = String(pathToFileURL(resolve(process.argv[2])));
const picturePath = process.argv[3];
const FILE_BYTES = 50000000;

/** A log of 50 MB, every thousandth line of which has no time. */
function writeLog(path) {
  const file = openSync(path, 'w');
  let bytes = 0;
  let lines = 0;
  let missing = 0;
  while (bytes < FILE_BYTES) {
    const rows = Array.from({ length: 1000 }, (_, k) => {
      const seconds = lines + k;
      const time = k === 999 ? '2021-02-30T00:00:00Z' : new Date(1600000000000 + 1000 * seconds).toISOString();
      return `host${k % 7} app[${k}]: level=info at ${time} user=${k % 13} took ${k % 50} ms\n`;
    });
    lines += rows.length;
    missing++;
    bytes += writeSync(file, rows.join(''));
  }
  closeSync(file);
  return { path, lines, missing };
}

/** The picture that README shows. */
async function picture(tab) {
  await tab.prefer('light');
  await tab.resize(960, 640);
  await tab.open('about:blank');
  await tab.open(`${page}#${new URLSearchParams({ format: 'rfc3339', text: '1985-13-12T23:20:50.52-08:30', target: 'parse' })}`);
  await tab.evaluate('window.ready');
  return tab.screenshot(530);
}

/** Whether all tests pass in a browser. */
async function testIn(name, log) {
  const checks = new Checks();
  await withBrowser(name, async (tab) => {
    for (const [what, test] of Object.entries(tests)) {
      await tab.open('about:blank');
      await tab.open(page);
      await tab.evaluate('window.ready');
      const before = checks.failed.length;
      await test(tab, checks, { page, log, timeZone: TIME_ZONE });
      if (checks.failed.length > before) console.log(`${what} in ${name}:\n${checks.failed.slice(before).join('\n')}`);
    }
    checks.same(tab.messages, [], 'the console');
    const isPictured = name === 'chromium' && picturePath !== undefined && checks.failed.length === 0;
    if (isPictured) writeFileSync(picturePath, await picture(tab));
  });
  console.log(`the page in ${name}: ${checks.passed} passed, ${checks.failed.length} failed`);
  return checks.passed > 0 && checks.failed.length === 0;
}

const folder = await mkdtemp(join(tmpdir(), 'pelzaune-javascript-'));
let isRight = true;
try {
  const log = writeLog(join(folder, 'app.log'));
  for (const { name, program } of NAMES) {
    if (isInstalled(program)) isRight = (await testIn(name, log)) && isRight;
    else console.log(`skipped: the page in ${name}, since there is no ${program}`);
  }
} finally {
  await rm(folder, { recursive: true });
}
process.exit(isRight ? 0 : 1);

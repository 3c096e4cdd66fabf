// Runs all tests in each installed browser, over both modules of the package.
//
//     node browsers.mjs PACKAGE

import { dirname } from 'node:path';
import { fileURLToPath } from 'node:url';
import { isInstalled, NAMES, withBrowser } from './browsers/browser.mjs';
import { withServer } from './browsers/server.mjs';

const here = dirname(fileURLToPath(import.meta.url));

/** Whether all tests pass in a browser. */
async function testIn(name, address) {
  return withBrowser(name, async (tab) => {
    let isRight = true;
    for (const module of ['pelzaune.wasm', 'pelzaune64.wasm']) {
      await tab.open(`${address}/tests/browsers/run.html?tests=/tests/all.mjs&module=${module}`);
      const { passed, failed } = await tab.evaluate('window.result');
      for (const it of [...failed.slice(0, 20), ...tab.messages]) console.log(it);
      console.log(`${module} in ${name}: ${passed} passed, ${failed.length} failed`);
      isRight &&= passed > 0 && failed.length === 0 && tab.messages.length === 0;
    }
    return isRight;
  });
}

let isRight = true;
await withServer({ package: process.argv[2], tests: here }, async (address) => {
  for (const { name, program } of NAMES) {
    if (isInstalled(program)) isRight = (await testIn(name, address)) && isRight;
    else console.log(`skipped: the tests in ${name}, since there is no ${program}`);
  }
});
process.exit(isRight ? 0 : 1);

// All tests over one instance of the module, in Node or in a browser.

import { test as testArguments } from './arguments.mjs';
import { answered, Checks, utf8 } from './checks.mjs';
import { test as testDescribed } from './described.mjs';
import { test as testErrors } from './errors.mjs';
import { test as testMany } from './many.mjs';
import { test as testValues } from './values.mjs';

const MILLION = 1000000;
const RFC3339_STRICT = 4;

/** A million calls of each kind don't grow the memory. */
function testMemory(p, memory, checks) {
  const log = p.description('%d/%b/%Y:%H:%M:%S %z');
  const lines = utf8('1970-01-01T00:00:01Z\nx\n'.repeat(20000));
  const moment = p.parse('2021-01-02T03:04:05+05:30');
  const before = memory.buffer.byteLength;
  for (let k = 0; k < MILLION; k++) {
    p.parse('2021-01-02T03:04:05.123456789+05:30');
    if (k % 10 === 0) p.parse('02/Jan/2021:03:04:05 -0030', log);
    if (k % 100 === 0) answered(() => p.parse('2021-13-02T03:04:05Z'));
    if (k % 100 === 0) p.locate('02/Jan/2021:03:04', log);
    if (k % 100 === 0) p.format(moment, log);
    if (k % 1000 === 0) p.description('[year]-[month]-[day]');
    if (k % 100000 === 0) p.parseMany(lines);
    if (k % 100000 === 0) p.parseMilliseconds(Array(5000).fill('1970-01-01T00:00:01Z'), log);
  }
  checks.same(memory.buffer.byteLength, before, 'the memory after a million calls');
}

/** A column without entries counts the lines of a text, in no more time than it takes to parse them. */
function testCounting({ exports }, checks) {
  const { value } = exports.__heap_base;
  const size = typeof value === 'bigint' ? BigInt : Number;
  // The package's short results are there, and its texts follow.
  const refused = (Number(value) + 63) & ~63;
  const text = refused + 4096;
  const column = (lines, entries, capacity) => {
    new Uint8Array(exports.memory.buffer).set(lines, text);
    const start = performance.now();
    const count = exports.pelzaune_column(RFC3339_STRICT, size(text), size(lines.length), size(entries), size(capacity), size(refused));
    return { count: Number(count), milliseconds: performance.now() - start };
  };
  const counts = { '': 0, x: 1, '\n': 1, 'x\n': 1, 'x\ny': 2, '\n\n': 2, '\r\n': 1, 'x\n\ny\n': 3 };
  for (const [lines, count] of Object.entries(counts)) checks.same(column(utf8(lines), 0, 0).count, count, `lines of ${JSON.stringify(lines)}`);
  for (let length = 0; length < 200; length++) checks.same(column(utf8(`${'x'.repeat(length)}\n`.repeat(3)), 0, 0).count, 3, `lines of ${length} bytes`);

  const lines = utf8('2021-01-02T03:04:05.678+05:30\n'.repeat(10000));
  const entries = text + 8 * Math.ceil(lines.length / 8);
  // In turn, so that each has a chance on an idle machine, and after its code is optimized.
  const rounds = Array.from({ length: 40 }, () => [[0, 0], [entries, 10000]].map((given) => column(lines, ...given).milliseconds));
  checks.same([column(lines, 0, 0).count, column(lines, entries, 10000).count], [10000, 10000], 'the lines');
  const [counting, parsing] = [0, 1].map((k) => Math.min(...rounds.map((it) => it[k])));
  checks.isTrue(counting <= parsing, `counting lines takes ${counting} milliseconds, and parsing them ${parsing}`);
}

/** The module imports nothing. */
function testModule(module, createParser, checks) {
  checks.same(WebAssembly.Module.imports(module), [], 'the imports of the module');
  for (const wrong of [undefined, null, 5, {}, { exports: {} }]) checks.throws(() => createParser(wrong), 'TypeError', {}, 'no module');
}

/** Runs all tests of the package over a module, and returns how many passed, and what failed. */
export function run(module, createParser, ready) {
  const checks = new Checks();
  const instance = new WebAssembly.Instance(module);
  const p = createParser(instance);
  testModule(module, createParser, checks);
  testCounting(instance, checks);
  testMemory(p, instance.exports.memory, checks);
  for (const test of [testValues, testErrors, testMany, testDescribed, testArguments]) {
    try {
      test(p, checks);
    } catch (error) {
      checks.failed.push(`a test ends early: ${error.stack}`);
    }
  }
  checks.same(Object.keys(p).every((name) => typeof ready[name] === 'function'), true, 'the calls of the package');
  checks.same(createParser(module).parse('1985-04-12T23:20:50.52Z'), ready.parse('1985-04-12T23:20:50.52Z'), 'over a Module');
  checks.throws(() => ready.parse('x'), 'ParseError', { index: 0 }, 'the package');
  return { passed: checks.passed, failed: checks.failed };
}

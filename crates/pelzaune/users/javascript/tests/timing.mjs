// Measures calls in Node or in a browser.

import { padded } from './checks.mjs';

const ROUNDS = 25;
const CALLS = 500;
// A run is shorter than a turn of the processor on a busy machine.
const LINES = 4000;
const LOG = '%d/%b/%Y:%H:%M:%S %z';
const RFC3339_STRICT = 4;

/** The least nanoseconds of each call, which are made in turn. */
function leastOf(calls, count, rounds) {
  const least = calls.map(() => Infinity);
  for (let round = 0; round < rounds; round++) {
    calls.forEach((call, index) => {
      const start = performance.now();
      call();
      const nanoseconds = ((performance.now() - start) * 1e6) / count;
      // The first rounds warm up.
      if (round >= 5) least[index] = Math.min(least[index], nanoseconds);
    });
  }
  return least.map(Math.round);
}

/** Texts that differ, so that no engine answers from a cache of the last text. */
function madeTexts() {
  const joined = Array.from({ length: LINES }, (_, k) => (
    `${2000 + (k % 30)}-${padded(1 + (k % 12), 2)}-${padded(1 + (k % 28), 2)}T${padded(k % 24, 2)}:${padded(k % 60, 2)}:${padded((k * 7) % 60, 2)}.${padded((k * 7919) % 1000, 3)}+05:30`)).join('\n');
  // Engines keep a part of a longer string as a view of that, and a text that JSON has as a string of its own.
  return { joined, parts: joined.split('\n'), texts: JSON.parse(JSON.stringify(joined.split('\n'))) };
}

let sink = 0;

/** The calls for one text, by their names in the table. */
function callsOfOne(p, texts, parts) {
  const { Temporal } = globalThis;
  const log = p.description(LOG);
  const logs = texts.map((_, k) => `${padded(1 + (k % 28), 2)}/Jan/${2000 + (k % 30)}:03:04:05 -0030`);
  const mails = texts.map((text) => new Date(text).toUTCString());
  const each = (list, use) => () => { for (let k = 0; k < CALLS; k++) sink += use(list[k]); };
  return {
    '`parse(text)`': each(texts, (it) => p.parse(it).day),
    '`Date.parse(text)`': each(texts, Date.parse),
    '`new Date(text)`': each(texts, (it) => new Date(it).getTime()),
    ...(Temporal && { '`Temporal.Instant.from(text)`': each(texts, (it) => Temporal.Instant.from(it).epochMilliseconds) }),
    '`parse` of a part of a longer string': each(parts, (it) => p.parse(it).day),
    '`Date.parse` of a part of a longer string': each(parts, Date.parse),
    "`parse(text, 'rfc2822')`": each(mails, (it) => p.parse(it, 'rfc2822').day),
    '`Date.parse` of a mail date': each(mails, Date.parse),
    '`parse` by a description': each(logs, (it) => p.parse(it, log).day),
  };
}

/** A call that counts lines, by a column without entries. They are in the memory of an instance of its own. */
function lineCounter(module, lines) {
  const { memory, pelzaune_column: column, __heap_base: base } = new WebAssembly.Instance(module).exports;
  const refused = (base.value + 63) & ~63;
  const text = refused + 64;
  new Uint8Array(memory.buffer).set(lines, text);
  return () => column(RFC3339_STRICT, text, lines.length, 0, 0, refused);
}

/** The calls for many texts. */
function callsOfMany(module, p, texts, joined) {
  const lines = new TextEncoder().encode(joined);
  const countLines = lineCounter(module, lines);
  const { Temporal } = globalThis;
  return {
    '`parseMany(bytes)`, a line': () => { sink += p.parseMany(lines).rejected.length; },
    '`parseMilliseconds(bytes)`, a line': () => { sink += p.parseMilliseconds(lines).rejected.length; },
    '`pelzaune_column` without entries, a line': () => { sink += countLines(); },
    '`parseMany(texts)`, a text': () => { sink += p.parseMany(texts).rejected.length; },
    '`texts.map(Date.parse)`, a text': () => { sink += Float64Array.from(texts, Date.parse)[0]; },
    ...(Temporal && { '`Temporal.Instant.from` of each, a text': () => { for (const it of texts) sink += Temporal.Instant.from(it).epochMilliseconds; } }),
  };
}

/** The nanoseconds of each call. */
export function run(module, createParser, p) {
  const { joined, parts, texts } = madeTexts();
  const one = callsOfOne(p, texts, parts);
  const many = callsOfMany(module, p, texts, joined);
  const nanoseconds = [...leastOf(Object.values(one), CALLS, 8 * ROUNDS), ...leastOf(Object.values(many), LINES, 4 * ROUNDS)];
  return Object.fromEntries([...Object.keys(one), ...Object.keys(many)].map((name, index) => [name, nanoseconds[index]]));
}

// Answers the lines that make_lines.py writes with the nanoseconds since 1970, as `answers nanoseconds` does.
//
//     node answers.mjs PACKAGE [MODULE.wasm]
//
// It also checks that a column of the texts of each format has the same numbers.

import { readFileSync } from 'node:fs';
import { resolve } from 'node:path';
import { pathToFileURL } from 'node:url';

const folder = pathToFileURL(`${resolve(process.argv[2])}/`);
const { createParser } = await import(new URL('parser.js', folder));
const p = createParser(new WebAssembly.Module(readFileSync(new URL(process.argv[3] ?? 'pelzaune.wasm', folder))));

const NO_COUNT = -(2n ** 63n);
const TAB = 9;
const LF = 10;
const CR = 13;
const bytes = readFileSync(0);
const columns = new Map();

/** The answer for a text, which is added to the column of its format. */
function answer(format, text) {
  let count = NO_COUNT;
  let line;
  try {
    const { epochNanoseconds } = p.parse(text, format);
    const fits = epochNanoseconds >= NO_COUNT && epochNanoseconds < -NO_COUNT;
    if (fits) count = epochNanoseconds;
    line = fits ? String(epochNanoseconds) : 'too wide';
  } catch (error) {
    if (error.name !== 'ParseError') throw error;
    line = `error: ${error.message}`;
  }
  if (!columns.has(format)) columns.set(format, { texts: [], counts: [] });
  columns.get(format).texts.push(text);
  columns.get(format).counts.push(count);
  return line;
}

const answers = [];
for (let start = 0; start < bytes.length; ) {
  const end = bytes.indexOf(LF, start);
  const first = bytes.indexOf(TAB, start);
  const second = bytes.indexOf(TAB, first + 1);
  answers.push(`${answer(bytes.toString('latin1', start, first), bytes.subarray(second + 1, end))}\n`);
  start = end + 1;
}
process.stdout.write(answers.join(''));

/** Compares the column of texts or of lines with the counts. */
function compareColumn(format, given, counts) {
  const { epochNanoseconds } = p.parseMany(given, format);
  const isAlike = epochNanoseconds.length === counts.length && counts.every((count, index) => count === epochNanoseconds[index]);
  if (!isAlike) throw new Error(`the column of ${format} differs`);
}

for (const [format, { texts, counts }] of columns) {
  compareColumn(format, texts, counts);
  // No line of a file ends with CR, since that is part of the line's end.
  const isLine = texts.map((text) => text[text.length - 1] !== CR);
  const lines = texts.filter((_, index) => isLine[index]).flatMap((text) => [text, Buffer.of(LF)]);
  compareColumn(format, Buffer.concat(lines), counts.filter((_, index) => isLine[index]));
}

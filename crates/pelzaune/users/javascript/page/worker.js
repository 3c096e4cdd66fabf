// Parses a log in a worker: reads it in chunks, finds the time of each line, and counts.

import { Description, numberOf } from '../package/formats.js';
import { Memory } from '../package/memory.js';
import { createParser } from '../package/parser.js';
import { CHUNK_BYTES, Finder } from './finder.js';

const LF = 10;
// So many lines of each kind are shown, and so many bytes of a line.
const LISTED_LINES = 200;
const LISTED_BYTES = 400;

const decoder = new TextDecoder();

/** A log while it is parsed. */
class Log {
  constructor(module, format, description) {
    this.p = createParser(module);
    this.format = format === 'description' ? this.p.description(description) : format;
    this.memory = new Memory(new WebAssembly.Instance(module));
    this.finder = new Finder(this.memory, numberOf(this.format), Description.preparedOf(this.format), description);
    this.tally = { lines: 0, times: 0, missing: 0, first: Infinity, last: -Infinity };
    this.listed = [];
    this.errors = [];
  }

  /** A line for the page: its text before, in and after its time or the part that comes closest to one. */
  lineFor(start, end, found, note) {
    const { bytes } = this.memory;
    const text = (from, to) => decoder.decode(bytes.slice(from, Math.min(to, start + LISTED_BYTES, end)));
    const [from, to] = found ? [found.start, found.end] : [end, end];
    return {
      number: this.tally.lines, isMissing: note.isMissing, note: note.text,
      before: text(start, from), time: text(from, to), after: `${text(to, end)}${end - start > LISTED_BYTES ? '…' : ''}`,
    };
  }

  /** Why a line has no time, given the part that comes closest to one. */
  reasonOf(part, end) {
    if (part === undefined) return 'no time found';
    try {
      this.p.parse(this.memory.bytes.slice(part.start, part.isWhole ? part.end : end), this.format);
    } catch (error) {
      return error.expected === null ? error.message : `${error.message}, expected ${error.expected}`;
    }
    return 'no time found';
  }

  addLine(start, end) {
    const { tally } = this;
    tally.lines++;
    const found = this.finder.find(start, end);
    if (found !== undefined) {
      const seconds = this.finder.seconds();
      tally.times++;
      if (seconds < tally.first) tally.first = seconds;
      if (seconds > tally.last) tally.last = seconds;
      if (this.listed.length < LISTED_LINES) this.listed.push(this.lineFor(start, end, found, { isMissing: false, text: isoOf(seconds) }));
      return;
    }
    tally.missing++;
    if (this.listed.length >= LISTED_LINES && this.errors.length >= LISTED_LINES) return;
    const part = this.finder.findError(start, end);
    const line = this.lineFor(start, end, part, { isMissing: true, text: this.reasonOf(part, end) });
    if (this.listed.length < LISTED_LINES) this.listed.push(line);
    if (this.errors.length < LISTED_LINES) this.errors.push(line);
  }

  /** Adds the lines of a chunk, and returns how many bytes these are. The rest has no end of a line yet. */
  addChunk(chunk, isLast) {
    const { memory } = this;
    memory.bytes.set(chunk, memory.text);
    const end = memory.text + chunk.length;
    let start = memory.text;
    while (start < end) {
      const next = memory.bytes.indexOf(LF, start);
      const isWhole = next >= 0 && next < end;
      // A line that is longer than a chunk is cut.
      if (!isWhole && !isLast && start > memory.text) break;
      const to = isWhole ? next : end;
      this.addLine(start, to > start && memory.bytes[to - 1] === 13 ? to - 1 : to);
      start = isWhole ? next + 1 : end;
    }
    return start - memory.text;
  }
}

/** An instant in seconds as text. */
function isoOf(seconds) {
  const date = new Date(1000 * seconds);
  return Number.isNaN(date.getTime()) ? `${seconds} s` : date.toISOString().replace('.000Z', 'Z');
}

/** Parses a blob, and reports how far it is. */
async function parseLog(log, blob, report) {
  for (let at = 0; at < blob.size; ) {
    const end = Math.min(at + CHUNK_BYTES, blob.size);
    const chunk = new Uint8Array(await blob.slice(at, end).arrayBuffer());
    at += log.addChunk(chunk, end === blob.size);
    report({ progress: at / blob.size });
  }
}

/** Answers messages of the page. Each has the module, a blob, a format, and a number that the answers repeat. */
export function serve() {
  self.onmessage = async ({ data }) => {
    const { number, module, blob, format, description } = data;
    const report = (answer) => self.postMessage({ number, ...answer });
    try {
      const start = performance.now();
      const log = new Log(module, format, description);
      await parseLog(log, blob, report);
      const { first, last, ...counts } = log.tally;
      const range = counts.times > 0 ? [isoOf(first), isoOf(last)] : null;
      report({ tally: counts, range, seconds: (performance.now() - start) / 1000, listed: log.listed, errors: log.errors });
    } catch (error) {
      report({ error: String(error?.message ?? error) });
    }
  };
}

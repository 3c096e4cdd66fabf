// Finds the time in each line of bytes, over the memory of the module.
//
// A time may start at each word. The text from there is parsed: where only the rest of the line is too much, the library
// says where the time ends. Most lines of a log have their time where the line before has it, so that is tried first.

import { KIND } from '../package/memory.js';
import { syntaxOf } from '../package/formats.js';

/** The bytes that the finder takes at once. A longer line is cut. */
export const CHUNK_BYTES = 1048576;
// So many words of a line are tried, and the errors of so many are located.
const MOST_WORDS = 200;
const MOST_LOCATED = 20;

/** Whether a byte is of a word: a letter, a digit, or of a character that isn't ASCII. */
const isOfWord = (byte) => (byte >= 48 && byte <= 57) || (byte >= 65 && byte <= 90) || (byte >= 97 && byte <= 122) || byte > 127;

export class Finder {
  /** `number` is that of a format, or 0 for a description. */
  constructor(memory, number, prepared, description) {
    this.memory = memory;
    this.number = number;
    this.start = memory.text;
    memory.reserve(this.start + CHUNK_BYTES + 1024);
    if (number === 0) {
      memory.load(prepared);
      this.syntax = syntaxOf(description);
      this.described = this.start + CHUNK_BYTES;
      this.describedLength = memory.putString(description, this.described);
    }
    // Where the last time was in its line.
    this.offset = 0;
  }

  /** Parses the instant of bytes of the memory, and returns the status. */
  parse(at, end) {
    const { calls, size, outAt, preparedAt } = this.memory;
    if (this.number !== 0) return calls.pelzaune_parse_instant(this.number, size(at), size(end - at), outAt);
    return calls.pelzaune_described_instant(preparedAt, size(at), size(end - at), outAt);
  }

  /** Locates the error of bytes of the memory. Returns its status and the length before it. */
  locate(at, end) {
    const { calls, size, outAt, view, out } = this.memory;
    const status = this.number !== 0
      ? calls.pelzaune_locate(this.number, size(at), size(end - at), outAt)
      : calls.pelzaune_read_locate(this.syntax, size(this.described), size(this.describedLength), size(at), size(end - at), outAt);
    return { status, length: status === 0 ? end - at : view.getUint32(out, true) };
  }

  /** The seconds that the last parse stored. */
  seconds() {
    const { view, out } = this.memory;
    return view.getInt32(out + 4, true) * 4294967296 + view.getUint32(out, true);
  }

  /** The end of the time that starts at a place, or 0. A time ends with a word. */
  timeEnd(at, end) {
    const status = this.parse(at, end);
    if (status === 0) return end;
    if ((status & 0xff) !== KIND.TRAILING) return 0;
    const { bytes } = this.memory;
    const to = at + this.locate(at, end).length;
    const isWhole = to > at && !(isOfWord(bytes[to - 1]) && isOfWord(bytes[to]));
    return isWhole && this.parse(at, to) === 0 ? to : 0;
  }

  /** Calls `use` with the start of each word of a line, until it returns something. */
  eachWord(start, end, use) {
    const { bytes } = this.memory;
    let words = 0;
    for (let at = start; at < end && words < MOST_WORDS; at++) {
      const isStart = isOfWord(bytes[at]) && (at === start || !isOfWord(bytes[at - 1]));
      const isSign = (bytes[at] === 43 || bytes[at] === 45) && (at === start || !isOfWord(bytes[at - 1]));
      if (!isStart && !isSign) continue;
      words++;
      const found = use(at);
      if (found) return found;
    }
    return undefined;
  }

  /** The time of a line: where it starts and ends. Or undefined. The instant is then stored. */
  find(start, end) {
    const same = start + this.offset;
    const isWord = same < end && (same === start || !isOfWord(this.memory.bytes[same - 1]));
    const sameEnd = isWord ? this.timeEnd(same, end) : 0;
    if (sameEnd > 0) return { start: same, end: sameEnd };
    return this.eachWord(start, end, (at) => {
      const to = this.timeEnd(at, end);
      if (to === 0) return undefined;
      this.offset = at - start;
      return { start: at, end: to };
    });
  }

  /** Where a line without a time comes closest to one: the word of which most bytes match. Or undefined. */
  findError(start, end) {
    let best;
    let located = 0;
    this.eachWord(start, end, (at) => {
      const { status, length } = this.locate(at, end);
      const isWhole = status === 0 || (status & 0xff) === KIND.TRAILING;
      if (length > 0 && (best === undefined || length > best.end - best.start)) best = { start: at, end: at + length, isWhole };
      located++;
      return located === MOST_LOCATED;
    });
    return best;
  }
}

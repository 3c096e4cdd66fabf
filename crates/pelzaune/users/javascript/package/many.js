// Many texts, or the lines of bytes, as numbers.
//
// Lines are parsed in blocks of at most BLOCK_BYTES, with room for an entry a byte: no block has more lines, so none is
// counted first, and the memory doesn't grow with what is parsed. A block starts at the start of a line, so that it has
// both bytes of each CR LF or neither.

import { FORMATS, kindOf } from './formats.js';
import { BLOCK_BYTES, isBytes, isWellFormed, validateBytes } from './memory.js';

/** The entry of a rejected text, the least number. It is also the count of one instant, so `rejected` decides. */
export const NO_COUNT = -(2n ** 63n);

const LF = 10;
const CR = 13;
const LEAST_HIGH_HALF = -(2 ** 31);
// As many UTF-16 units of texts as fit a block, whatever their characters.
const BATCH_UNITS = Math.floor(BLOCK_BYTES / 3);
const FIRST_ROOM = 1024;
const IS_LITTLE_ENDIAN = new Uint8Array(new Uint16Array([1]).buffer)[0] === 1;
// A mail date may have line ends in it.
const WITHOUT_LINE_ENDS = [FORMATS.get('rfc3339'), FORMATS.get('iso8601')];

/** The milliseconds, rounded down, of nanoseconds that are given as their high and low 32 bits. */
function millisecondsOf(high, low) {
  // 1000000 is 64 * 15625. Each product below is exact in 53 bits.
  const rest = ((high % 15625) + 15625) % 15625;
  return ((high - rest) / 15625) * 67108864 + Math.floor((rest * 67108864 + (low >>> 6)) / 15625);
}

/** The end of a line's text, given that of the line: before a CR. */
function textEnd(bytes, start, end) {
  return end > start && bytes[end - 1] === CR ? end - 1 : end;
}

/** The index of the first LF of the memory between two indexes, or the second. Words of four bytes are tested at once. */
function lineEnd({ bytes, words }, start, end) {
  let at = start;
  while ((at & 3) !== 0 && at < end && bytes[at] !== LF) at++;
  if ((at & 3) !== 0) return at;
  const last = end >> 2;
  let word = at >> 2;
  for (; word < last; word++) {
    // An LF becomes a byte of 0, from which the subtraction borrows.
    const mixed = words[word] ^ 0x0a0a0a0a;
    if (((mixed - 0x01010101) & ~mixed & 0x80808080) !== 0) break;
  }
  at = word << 2;
  while (at < end && bytes[at] !== LF) at++;
  return at;
}

class Column {
  constructor(memory, number, prepared, inMilliseconds) {
    this.memory = memory;
    this.number = number;
    this.prepared = prepared;
    this.inMilliseconds = inMilliseconds;
    // Each call of a module with a memory of 64 bits takes BigInts.
    this.isSplit = !memory.isWide && prepared === undefined && WITHOUT_LINE_ENDS.includes(number);
    this.values = inMilliseconds ? new Float64Array(FIRST_ROOM) : new BigInt64Array(FIRST_ROOM);
    this.count = 0;
    this.rejected = [];
  }

  /** Makes room for more values. */
  reserve(more) {
    if (this.count + more <= this.values.length) return;
    const longer = new this.values.constructor(Math.max(this.count + more, 2 * this.values.length));
    longer.set(this.values.subarray(0, this.count));
    this.values = longer;
  }

  /** Calls the module for the lines of the text in the memory, and returns how many lines it has. */
  parseLines(length) {
    const { memory } = this;
    const { calls, size } = memory;
    if (this.isSplit) return this.parseEach(length);
    const text = [memory.textAt, size(length), memory.entriesAt, size(BLOCK_BYTES), memory.countAt];
    if (this.prepared === undefined) return Number(calls.pelzaune_column(this.number, ...text));
    memory.load(this.prepared);
    return Number(calls.pelzaune_described_column(memory.preparedAt, ...text));
  }

  /**
   * Does what `pelzaune_column` does for the text in the memory. The module is built without vectors, so its search for
   * the ends of lines takes a third of that call's time. Here a line is first taken to be as long as the one before: if
   * the module accepts that text, it has no LF.
   */
  parseEach(length) {
    const { memory, number } = this;
    const { calls, bytes, view, text, entries } = memory;
    const end = text + length;
    let [lines, refused, width] = [0, 0, -1];
    for (let start = text; start < end; lines++) {
      const entry = entries + 8 * lines;
      const isLikely = width >= 0 && start + width < end && bytes[start + width] === LF;
      let to = isLikely ? start + width : lineEnd(memory, start, end);
      let status = calls.pelzaune_parse_nanoseconds(number, start, textEnd(bytes, start, to) - start, entry);
      if (status !== 0 && isLikely) {
        to = lineEnd(memory, start, end);
        status = calls.pelzaune_parse_nanoseconds(number, start, textEnd(bytes, start, to) - start, entry);
      }
      width = status === 0 ? to - start : -1;
      if (status !== 0) {
        view.setInt32(entry, 0, true);
        view.setInt32(entry + 4, LEAST_HIGH_HALF, true);
        refused++;
      }
      start = to + 1;
    }
    view.setUint32(memory.count, refused, true);
    return lines;
  }

  /** Parses bytes of the memory as one text, into `out`, as a count of nanoseconds or as an instant. */
  parseOne(at, length) {
    const { memory, prepared } = this;
    const { calls, size } = memory;
    const target = this.inMilliseconds ? 'instant' : 'nanoseconds';
    if (prepared === undefined) return calls[`pelzaune_parse_${target}`](this.number, size(at), size(length), memory.outAt);
    memory.load(prepared);
    return calls[`pelzaune_described_${target}`](memory.preparedAt, size(at), size(length), memory.outAt);
  }

  /** The value that `parseOne` stored. */
  storedOne() {
    const { view, out } = this.memory;
    if (!this.inMilliseconds) return view.getBigInt64(out, true);
    const seconds = view.getInt32(out + 4, true) * 4294967296 + view.getUint32(out, true);
    return 1000 * seconds + Math.floor(view.getUint32(out + 8, true) / 1000000);
  }

  /** Appends the value of bytes of the memory that are one text. */
  addOne(at, length) {
    this.reserve(1);
    const isRejected = length < 0 || this.parseOne(at, length) !== 0;
    if (isRejected) this.rejected.push(this.count);
    this.values[this.count++] = !isRejected ? this.storedOne() : this.inMilliseconds ? NaN : NO_COUNT;
  }

  /** Appends the values of a block of lines, each of which ends with LF or CR LF, or of one line that is longer. */
  addBlock(block) {
    const { memory } = this;
    const { text } = memory;
    const length = memory.putBytes(block, text);
    if (length <= BLOCK_BYTES) return this.addEntries(this.parseLines(length), length);
    const end = text + length;
    this.addOne(text, textEnd(memory.bytes, text, memory.bytes[end - 1] === LF ? end - 1 : end) - text);
  }

  /** Appends the entries of as many lines of the memory. */
  addEntries(lines, length) {
    const { memory } = this;
    const { view, entries } = memory;
    this.reserve(lines);
    if (this.inMilliseconds) {
      for (let k = 0, at = entries; k < lines; k++, at += 8) {
        this.values[this.count + k] = millisecondsOf(view.getInt32(at + 4, true), view.getInt32(at, true));
      }
    } else if (IS_LITTLE_ENDIAN) {
      this.values.set(new BigInt64Array(memory.bytes.buffer, entries, lines), this.count);
    } else {
      for (let k = 0; k < lines; k++) this.values[this.count + k] = view.getBigInt64(entries + 8 * k, true);
    }
    const refused = view.getUint32(memory.count, true);
    if (refused !== 0) this.addRejected(lines, length, refused);
    this.count += lines;
  }

  /**
   * Appends the indexes of rejected lines. If more entries than these have the number of a rejected line, or if an
   * instant may fit milliseconds alone, each of them is parsed again.
   */
  addRejected(lines, length, refused) {
    const { view, entries } = this.memory;
    const found = [];
    for (let k = 0, at = entries; k < lines; k++, at += 8) {
      if (view.getInt32(at + 4, true) === LEAST_HIGH_HALF && view.getInt32(at, true) === 0) found.push(k);
    }
    if (found.length === refused && !this.inMilliseconds) {
      for (const k of found) this.rejected.push(this.count + k);
      return;
    }
    this.parseAgain(found, length);
  }

  /** Parses lines with those indexes again, each by itself. */
  parseAgain(found, length) {
    const { bytes, text } = this.memory;
    const end = text + length;
    let start = text;
    let line = 0;
    for (const k of found) {
      for (; line < k; line++) start = bytes.indexOf(LF, start) + 1;
      const next = bytes.indexOf(LF, start);
      const isRejected = this.parseOne(start, textEnd(bytes, start, next < 0 || next > end ? end : next) - start) !== 0;
      if (isRejected) this.rejected.push(this.count + k);
      this.values[this.count + k] = !isRejected ? this.storedOne() : this.inMilliseconds ? NaN : NO_COUNT;
    }
  }

  /** Appends the values of all lines of bytes. */
  addLines(bytes) {
    for (let start = 0; start < bytes.length; ) {
      const end = blockEnd(bytes, start);
      this.addBlock(bytes.subarray(start, end));
      start = end;
    }
  }

  /** Appends the values of texts. Texts without LF, and without a CR at their end, are the lines of a block. */
  addBatch(batch) {
    const { memory } = this;
    if (batch.length === 0) return;
    const joined = `${batch.join('\n')}\n`;
    if (isWellFormed(joined) && !joined.includes('\r\n')) {
      const length = memory.putString(joined, memory.text);
      const lines = this.parseLines(length);
      if (lines === batch.length) return this.addEntries(lines, length);
    }
    for (const text of batch) this.addOne(memory.text, memory.put(text));
  }

  /** Appends the values of an iterable's texts. The iterable may call the package meanwhile. */
  addTexts(texts) {
    let batch = [];
    let units = 0;
    let index = 0;
    for (const text of texts) {
      const isShort = typeof text === 'string' && text.length < BATCH_UNITS;
      if (!isShort || units + text.length >= BATCH_UNITS) {
        this.addBatch(batch);
        batch = [];
        units = 0;
      }
      if (isShort) {
        batch.push(text);
        units += text.length + 1;
      } else {
        this.addOne(this.memory.text, this.memory.put(text, `text ${index}`));
      }
      index++;
    }
    this.addBatch(batch);
  }
}

/** The end of the lines from `start` on that fit a block, or of one line that is longer. */
function blockEnd(bytes, start) {
  const most = start + BLOCK_BYTES;
  if (most >= bytes.length) return bytes.length;
  const last = bytes.lastIndexOf(LF, most - 1);
  if (last >= start) return last + 1;
  const next = bytes.indexOf(LF, most);
  return next < 0 ? bytes.length : next + 1;
}

/** The bytes of a Uint8Array or a buffer, or undefined for another value. */
function bytesOf(value) {
  if (isBytes(value)) {
    validateBytes(value);
    return new Uint8Array(value.buffer, value.byteOffset, value.byteLength);
  }
  const kind = Object.prototype.toString.call(value);
  return kind === '[object ArrayBuffer]' || kind === '[object SharedArrayBuffer]' ? new Uint8Array(value) : undefined;
}

/** The numbers of texts or of lines, and the indexes of the rejected ones. */
export function parseColumn(memory, texts, number, prepared, inMilliseconds) {
  const column = new Column(memory, number, prepared, inMilliseconds);
  const bytes = bytesOf(texts);
  if (bytes !== undefined) {
    column.addLines(bytes);
  } else {
    const isIterable = typeof texts === 'object' && typeof texts?.[Symbol.iterator] === 'function';
    if (!isIterable) throw new TypeError(`the texts must be an iterable of strings or the bytes of lines, not ${kindOf(texts)}`);
    column.addTexts(texts);
  }
  const values = column.values.slice(0, column.count);
  const { rejected } = column;
  return inMilliseconds ? { epochMilliseconds: values, rejected } : { epochNanoseconds: values, rejected };
}

// The calls of the package, over one instance of the module.

import { DescriptionError, FormatError, ParseError } from './errors.js';
import { DEFAULT_FORMAT, Description, DESCRIPTION_BYTES, FORMATS, kindOf, numberOf, syntaxOf } from './formats.js';
import { indexIn, KIND, loneSurrogateIn, Memory } from './memory.js';
import { parseColumn } from './many.js';
import { membersOf } from './moments.js';
import { Moment, PlainDate, PlainDateTime, PlainTime } from './values.js';

const LONE_SURROGATE = 'a lone surrogate is not text';
// The module has a status for each part alone. The Python module has this message too.
const NO_PART = 'the text has no complete date, time or offset';
const NO_INDEX = 0xffffffff;
const DEFAULT_NUMBER = FORMATS.get(DEFAULT_FORMAT);

// What a value needs: a sum of these.
const NEEDS = { DATE: 1, TIME: 2, OFFSET: 4 };
const NEEDS_MOMENT = NEEDS.DATE + NEEDS.TIME + NEEDS.OFFSET;

/** The calls of the module for a target, which needs that: by the number of a format, and by a prepared description. */
function callsFor(calls, target, needs) {
  return { byNumber: calls[`pelzaune_parse_${target}`], byDescription: calls[`pelzaune_described_${target}`], needs };
}

class Parser {
  constructor(instance) {
    this.memory = new Memory(instance);
    const { calls } = this.memory;
    this.local = callsFor(calls, 'local', NEEDS.DATE + NEEDS.TIME);
    this.date = callsFor(calls, 'date', NEEDS.DATE);
    this.time = callsFor(calls, 'time', NEEDS.TIME);
    this.parts = callsFor(calls, 'parts', 0);
  }

  /** Copies a text and, where the format is a description, that. Returns the text's length. */
  prepare(text, format, number) {
    const { memory } = this;
    const length = memory.put(text);
    if (length < 0) throw this.surrogateError(text);
    if (number === 0) memory.load(Description.preparedOf(format));
    return length;
  }

  /** Parses a text into the memory at `out`, or throws its error. */
  parseInto({ byNumber, byDescription, needs }, text, format) {
    const { memory } = this;
    const number = format === undefined ? DEFAULT_NUMBER : numberOf(format);
    const length = this.prepare(text, format, number);
    const status = number !== 0
      ? byNumber(number, memory.textAt, memory.size(length), memory.outAt)
      : byDescription(memory.preparedAt, memory.textAt, memory.size(length), memory.outAt);
    if (status !== 0) throw this.error(status, needs, text, length, format);
  }

  // As `parseInto`, but with calls of its own, which engines then make without a lookup.
  parse(text, format) {
    const { memory } = this;
    const { calls, out } = memory;
    const number = format === undefined ? DEFAULT_NUMBER : numberOf(format);
    const length = this.prepare(text, format, number);
    const status = number !== 0
      ? calls.pelzaune_parse_moment(number, memory.textAt, memory.size(length), memory.outAt)
      : calls.pelzaune_described_moment(memory.preparedAt, memory.textAt, memory.size(length), memory.outAt);
    if (status !== 0) throw this.error(status, NEEDS_MOMENT, text, length, format);
    const { view, bytes } = memory;
    return new Moment(
      view.getInt32(out, true), bytes[out + 12], bytes[out + 13], bytes[out + 14], bytes[out + 15], bytes[out + 16],
      view.getUint32(out + 4, true), view.getInt32(out + 8, true),
    );
  }

  parsePlain(text, format) {
    this.parseInto(this.local, text, format);
    const { view, bytes, out } = this.memory;
    return new PlainDateTime(
      view.getInt32(out, true), bytes[out + 8], bytes[out + 9], bytes[out + 10], bytes[out + 11], bytes[out + 12],
      view.getUint32(out + 4, true),
    );
  }

  parseDate(text, format) {
    this.parseInto(this.date, text, format);
    return this.dateAt(this.memory.out);
  }

  parseTime(text, format) {
    this.parseInto(this.time, text, format);
    return this.timeAt(this.memory.out);
  }

  dateAt(at) {
    const { view, bytes } = this.memory;
    return new PlainDate(view.getInt32(at, true), bytes[at + 4], bytes[at + 5]);
  }

  timeAt(at) {
    const { view, bytes } = this.memory;
    return new PlainTime(bytes[at + 4], bytes[at + 5], bytes[at + 6], view.getUint32(at, true));
  }

  /** The parts that the text has. A part that is out of range is an error, and so is a text without any part. */
  parseParts(text, format) {
    this.parseInto(this.parts, text, format);
    const { view, out } = this.memory;
    const isThere = (at) => {
      const status = view.getUint32(at, true);
      if (status !== 0 && (status & 0xff) !== KIND.INSUFFICIENT) throw this.errorWithoutPlace(status);
      return status === 0;
    };
    const [hasDate, hasTime, hasOffset] = [out + 20, out + 24, out + 28].map(isThere);
    if (!hasDate && !hasTime && !hasOffset) throw new ParseError(NO_PART);
    return {
      date: hasDate ? this.dateAt(out) : null,
      time: hasTime ? this.timeAt(out + 8) : null,
      offsetSeconds: hasOffset ? view.getInt32(out + 16, true) : null,
    };
  }

  /** Prepares a description, in the syntax of strftime or of brackets. */
  description(text) {
    if (typeof text !== 'string') throw new TypeError(`a description must be a string, not ${kindOf(text)}`);
    const { memory } = this;
    const length = memory.put(text);
    if (length < 0) throw this.surrogateError(text, DescriptionError);
    memory.loaded = null;
    memory.view.setUint32(memory.count, NO_INDEX, true);
    const status = memory.calls.pelzaune_describe(
      syntaxOf(text), memory.textAt, memory.size(length), memory.preparedAt, memory.countAt,
    );
    if (status === 0) return new Description(text, memory.bytes.slice(memory.prepared, memory.prepared + DESCRIPTION_BYTES));
    const index = memory.view.getUint32(memory.count, true);
    throw new DescriptionError(memory.message(status), { index: index === NO_INDEX ? null : indexIn(text, index) });
  }

  /** Where a text fails, or null where the format matches the whole text. */
  locate(text, format = DEFAULT_FORMAT) {
    numberOf(format);
    const length = this.memory.put(text);
    if (length < 0) {
      const { message, component, index, expected } = this.surrogateError(text);
      return { message, component, index, expected };
    }
    return this.placeOf(text, length, format);
  }

  /** The place of a text's error. The text is in the memory. */
  placeOf(text, length, format) {
    const { memory } = this;
    const number = numberOf(format);
    const size = memory.size(length);
    let status;
    if (number !== 0) {
      status = memory.calls.pelzaune_locate(number, memory.textAt, size, memory.outAt);
    } else {
      const at = memory.text + length;
      const described = memory.putString(format.text, at);
      status = memory.calls.pelzaune_read_locate(
        syntaxOf(format.text), memory.size(at), memory.size(described), memory.textAt, size, memory.outAt,
      );
    }
    if (status === 0) return null;
    const byteIndex = memory.view.getUint32(memory.out, true);
    const expected = this.expectationOf(status, memory.bytes[memory.out + 8]);
    return {
      message: memory.message(status),
      component: memory.component(status),
      index: typeof text === 'string' ? indexIn(text, byteIndex) : byteIndex,
      expected,
    };
  }

  /** What was expected at a place: the name of a component, a byte such as 'T' or '\x1b', or the end. */
  expectationOf(status, byte) {
    const kind = status & 0xff;
    if (kind === KIND.TRAILING) return 'the end';
    if (kind !== KIND.LITERAL) return this.memory.component(status);
    const isPrinted = byte >= 32 && byte < 127;
    return `'${isPrinted ? String.fromCharCode(byte) : `\\x${byte.toString(16).padStart(2, '0')}`}'`;
  }

  errorWithoutPlace(status) {
    return new ParseError(this.memory.message(status), { component: this.memory.component(status) });
  }

  /** The status of a text that is in the memory, with the component that is missing for what is needed, if one is. */
  withMissing(status, needs, length, format) {
    if (status !== KIND.INSUFFICIENT) return status;
    const { memory } = this;
    const { calls } = memory;
    const number = numberOf(format);
    return (number !== 0
      ? calls.pelzaune_missing(needs, number, memory.textAt, memory.size(length))
      : calls.pelzaune_described_missing(needs, memory.preparedAt, memory.textAt, memory.size(length))) || status;
  }

  /** The error of a text that is in the memory, for a value that needs that. */
  error(status, needs, text, length, format = DEFAULT_FORMAT) {
    const found = this.errorWithoutPlace(this.withMissing(status, needs, length, format));
    const place = this.placeOf(text, length, format);
    if (place) [found.index, found.expected] = [place.index, place.expected];
    return found;
  }

  /** The error of a string with a lone surrogate. */
  surrogateError(text, type = ParseError) {
    return new type(LONE_SURROGATE, { index: loneSurrogateIn(text) });
  }

  /** The numbers of many texts or lines, and the indexes of the rejected ones. */
  column(texts, format, inMilliseconds) {
    const number = format === undefined ? DEFAULT_NUMBER : numberOf(format);
    return parseColumn(this.memory, texts, number, Description.preparedOf(format), inMilliseconds);
  }

  /** Writes a moment. */
  format(moment, format = DEFAULT_FORMAT) {
    const number = numberOf(format);
    const members = membersOf(moment);
    const { memory } = this;
    const { view, out } = memory;
    view.setInt32(out, members.year, true);
    view.setUint32(out + 4, members.nanoseconds, true);
    view.setInt32(out + 8, members.offsetSeconds, true);
    members.small.forEach((value, index) => view.setUint8(out + 12 + index, value));
    if (number === 0) memory.load(Description.preparedOf(format));
    const { calls, outAt, writtenAt, writtenSize, countAt } = memory;
    const status = number !== 0
      ? calls.pelzaune_format_moment(number, outAt, writtenAt, writtenSize, countAt)
      : calls.pelzaune_described_format_moment(memory.preparedAt, outAt, writtenAt, writtenSize, countAt);
    if (status !== 0) throw new FormatError(memory.message(status), memory.component(status));
    return memory.readWritten(view.getUint32(memory.count, true));
  }
}

/** The calls of the package over a module of the library, or over an instance of one. */
export function createParser(source) {
  const isModule = Object.prototype.toString.call(source) === '[object WebAssembly.Module]';
  const instance = isModule ? new WebAssembly.Instance(source) : source;
  if (typeof instance?.exports?.pelzaune_version !== 'function') {
    throw new TypeError('the module of the library, or an instance of it, is needed');
  }
  const parser = new Parser(instance);
  return Object.freeze({
    parse: (text, format) => parser.parse(text, format),
    parsePlain: (text, format) => parser.parsePlain(text, format),
    parseDate: (text, format) => parser.parseDate(text, format),
    parseTime: (text, format) => parser.parseTime(text, format),
    parseParts: (text, format) => parser.parseParts(text, format),
    parseMany: (texts, format) => parser.column(texts, format, false),
    parseMilliseconds: (texts, format) => parser.column(texts, format, true),
    description: (text) => parser.description(text),
    locate: (text, format) => parser.locate(text, format),
    format: (moment, format) => parser.format(moment, format),
  });
}

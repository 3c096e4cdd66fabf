// The module and its memory: texts are copied into it, and results are read from it.
//
// The module never allocates. This file lays its memory out, from `__heap_base` on, once: short results, a description,
// and then the texts of a call. The memory grows only for a text that is longer than each before it.

import { kindOf } from './formats.js';

// The room for what the module writes: the longest text of a moment. Each text of a status is shorter.
const WRITTEN_BYTES = 1024;

/** The bytes of a block of lines, which are parsed by one call, and the entries of the most lines that it can have. */
export const BLOCK_BYTES = 65536;
const ENTRY_BYTES = 8;
const PAGE_BYTES = 65536;

// Offsets from the start of the memory that is ours.
const OUT = 0;
const COUNT = 64;
const WRITTEN = 128;
const PREPARED = 1152;
const TEXT = 2240;

// In browsers a call of the encoder takes longer than a loop over a short text. In Node it doesn't.
const SHORT_TEXT = 128;
const HAS_FAST_ENCODER = globalThis.process?.versions?.node !== undefined;

// The kinds of a status that this package treats apart: the lower 8 bits, by the numbers of pelzaune.h.
export const KIND = { LITERAL: 1, TRAILING: 3, INSUFFICIENT: 4, RANGE: 5 };
const MAJOR_VERSION = 1;

const encoder = new TextEncoder();
// A moment's text may begin with a byte order mark, which is a character of the description.
const decoder = new TextDecoder('utf-8', { ignoreBOM: true });
// It validates its argument as each method of a typed array does, so it throws where the buffer is detached.
const validate = Uint8Array.prototype.keys;
const nameOfView = Object.getOwnPropertyDescriptor(Object.getPrototypeOf(Uint8Array.prototype), Symbol.toStringTag).get;

/** Whether a value is a Uint8Array, also one of another realm, such as a frame. */
export function isBytes(value) {
  return typeof value === 'object' && nameOfView.call(value) === 'Uint8Array';
}

/** Throws a TypeError if the bytes have lost their buffer. */
export function validateBytes(bytes) {
  validate.call(bytes);
}

/** Whether a string is UTF-16, without lone surrogates. */
export const isWellFormed = String.prototype.isWellFormed
  ? (text) => text.isWellFormed()
  : (text) => !/\p{Surrogate}/u.test(text);

/** The index of the first lone surrogate of a string that isn't well-formed. */
export function loneSurrogateIn(text) {
  for (let index = 0; index < text.length; index++) {
    const unit = text.charCodeAt(index);
    if ((unit & 0xf800) !== 0xd800) continue;
    const isPair = unit < 0xdc00 && (text.charCodeAt(index + 1) & 0xfc00) === 0xdc00;
    if (!isPair) return index;
    index++;
  }
  return text.length;
}

export class Memory {
  constructor(instance) {
    this.calls = instance.exports;
    const version = this.calls.pelzaune_version();
    if (version >>> 8 !== MAJOR_VERSION) throw new Error(`version ${version >>> 8} of the module's interface isn't known`);

    // The module for wasm64 takes a BigInt for each pointer and length, and the lowered one a Number.
    this.isWide = typeof this.calls.__heap_base.value === 'bigint';
    this.size = this.isWide ? BigInt : (number) => number;
    const base = (Number(this.calls.__heap_base.value) + 63) & ~63;
    this.out = base + OUT;
    this.count = base + COUNT;
    this.written = base + WRITTEN;
    this.prepared = base + PREPARED;
    this.text = base + TEXT;
    this.entries = this.text + BLOCK_BYTES;
    this.outAt = this.size(this.out);
    this.countAt = this.size(this.count);
    this.writtenAt = this.size(this.written);
    this.preparedAt = this.size(this.prepared);
    this.textAt = this.size(this.text);
    this.entriesAt = this.size(this.entries);
    this.writtenSize = this.size(WRITTEN_BYTES);
    this.loaded = null;
    this.renew();
    this.reserve(this.entries + ENTRY_BYTES * BLOCK_BYTES);
  }

  /** Views the memory anew: an engine detaches the buffer when the memory grows. */
  renew() {
    this.bytes = new Uint8Array(this.calls.memory.buffer);
    this.view = new DataView(this.calls.memory.buffer);
    this.words = new Int32Array(this.calls.memory.buffer);
    this.shortText = this.bytes.subarray(this.text, this.text + 3 * SHORT_TEXT);
  }

  /** Grows the memory to `end`, if it is smaller. */
  reserve(end) {
    const missing = end - this.bytes.length;
    if (missing <= 0) return;
    const pages = Math.ceil(missing / PAGE_BYTES);
    try {
      this.grow(pages);
    } catch {
      throw new RangeError(`there is no memory for a text of ${end - this.text} bytes`);
    }
    this.renew();
  }

  grow(pages) {
    if (!this.isWide) return this.calls.memory.grow(pages);
    // A memory of 64 bits takes a BigInt by the standard, and a Number in Node 20.
    try {
      return this.calls.memory.grow(BigInt(pages));
    } catch (error) {
      if (!(error instanceof TypeError)) throw error;
      return this.calls.memory.grow(pages);
    }
  }

  /** Copies a string, which has to be well-formed, to a place, and returns its length in UTF-8. */
  putString(text, at) {
    const end = at + 3 * text.length;
    if (end > this.bytes.length) this.reserve(end);
    return encoder.encodeInto(text, this.bytes.subarray(at, end)).written;
  }

  /** Copies a string of at most SHORT_TEXT units to the place of a text, and returns its length in UTF-8. */
  putShort(text) {
    const { shortText } = this;
    if (HAS_FAST_ENCODER) return encoder.encodeInto(text, shortText).written;
    const { length } = text;
    let units = 0;
    for (let index = 0; index < length; index++) {
      const unit = text.charCodeAt(index);
      units |= unit;
      shortText[index] = unit;
    }
    return units < 128 ? length : encoder.encodeInto(text, shortText).written;
  }

  /** Copies bytes to a place, and returns their length. */
  putBytes(given, at) {
    validateBytes(given);
    this.reserve(at + given.length);
    this.bytes.set(given, at);
    return given.length;
  }

  /**
   * Copies a text, a string or bytes, and returns its length in bytes, or -1 for a string with a lone surrogate, which
   * has no bytes.
   */
  put(text, name = 'text') {
    if (typeof text === 'string') {
      const length = text.length <= SHORT_TEXT ? this.putShort(text) : this.putString(text, this.text);
      return length === text.length || isWellFormed(text) ? length : -1;
    }
    if (isBytes(text)) return this.putBytes(text, this.text);
    throw new TypeError(`the ${name} must be a string or a Uint8Array, not ${kindOf(text)}`);
  }

  /** Makes a prepared description the one at `preparedAt`. */
  load(prepared) {
    if (this.loaded === prepared) return;
    this.bytes.set(prepared, this.prepared);
    this.loaded = prepared;
  }

  /** The first `length` bytes that the module has written, as a string. */
  readWritten(length) {
    return decoder.decode(this.bytes.slice(this.written, this.written + Math.min(length, WRITTEN_BYTES)));
  }

  /** The library's text of a status. */
  message(status) {
    return this.readWritten(Number(this.calls.pelzaune_write_text(status, this.writtenAt, this.writtenSize)));
  }

  /** The name of the component of a status, or null. */
  component(status) {
    const number = status >>> 8;
    return number === 0 ? null : this.message(KIND.RANGE + 256 * number).replace(/ is out of range$/, '');
  }
}

/** The index in a string of the character whose UTF-8 has the byte with that index. */
export function indexIn(text, byteIndex) {
  let bytes = 0;
  let index = 0;
  while (index < text.length) {
    const point = text.codePointAt(index);
    bytes += point < 0x80 ? 1 : point < 0x800 ? 2 : point < 0x10000 ? 3 : 4;
    if (bytes > byteIndex) break;
    index += point > 0xffff ? 2 : 1;
  }
  return index;
}

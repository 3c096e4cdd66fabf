// Wrong arguments, odd buffers and odd texts: each has an error of its own, or a result.

import { answered, pick, random, utf8 } from './checks.mjs';

const FORMATS = ['rfc3339', 'rfc2822', 'iso8601'];
const DESCRIPTIONS = ['[year]-[month]-[day]', '%d/%b/%Y:%H:%M:%S %z'];
const TEXTS = [
  '1985-04-12T23:20:50.52Z', 'Thu, 13 Feb 1969 23:32:54 -0330', '2020-W53-6T03:04:05,25-00:30', '2021-03-04',
  '02/Jan/2021:03:04:05 -0030',
];
// Texts with a lone surrogate, and its index.
const LONE = [['\ud800', 0], ['2021-01-02T03:04:05Z\udfff', 20], ['\udd50\ud83d', 0], ['\u{1f550}\ud800b', 2], ['\ud800'.repeat(300), 0]];

const callsOf = (p) => [p.parse, p.parsePlain, p.parseDate, p.parseTime, p.parseParts, p.locate];
const formsOf = (p) => [...FORMATS, ...DESCRIPTIONS.map((it) => p.description(it))];

/** A buffer whose bytes have been moved away. */
function detached(view) {
  structuredClone(view.buffer, { transfer: [view.buffer] });
  return view;
}

function testTypes(p, checks) {
  const wrong = [undefined, null, 5, 5n, true, Symbol('text'), [], {}, () => '', new String('2021'), new Date(), new Float64Array(1),
    new DataView(new ArrayBuffer(1)), new ArrayBuffer(1), Object.create(null)];
  for (const value of wrong) {
    for (const call of callsOf(p)) checks.throws(() => call(value), 'TypeError', {}, `the text ${typeof value}`);
    checks.throws(() => p.description(value), 'TypeError', {}, `the description ${typeof value}`);
    if (value === undefined) continue;
    checks.throws(() => p.format(new Date(0), value), 'TypeError', {}, `the format ${typeof value} of a moment`);
    for (const call of [...callsOf(p), p.parseMany, p.parseMilliseconds]) {
      checks.throws(() => call(call === p.parseMany || call === p.parseMilliseconds ? [] : '2021', value), 'TypeError', {}, `the format ${typeof value}`);
    }
  }
  for (const call of [...callsOf(p), p.parseMany]) checks.throws(() => call(), 'TypeError', {}, 'no argument');
  for (const name of ['', 'rfc9557', 'rfc-3339', '\u0130so8601', 'i\u017fo8601', 'constructor', '__proto__', 'toString', '%Y', 'rfc3339 ', 'RFC3339\0']) {
    for (const call of callsOf(p)) checks.throws(() => call('2021', name), 'RangeError', {}, `the format ${name}`);
    checks.throws(() => p.format(new Date(0), name), 'RangeError', {}, `the format ${name} of a moment`);
  }
}

function testDescriptions(p, checks) {
  const real = p.description('%Y');
  for (const form of [{ ...real }, Object.create(real), new Proxy(real, {}), { text: '%Y' }]) {
    checks.throws(() => p.parse('2021', form), 'TypeError', {}, 'a forged description');
    checks.throws(() => p.format(new Date(0), form), 'TypeError', {}, 'a forged description of a moment');
  }
  const made = new real.constructor('%Y', new Uint8Array(1032));
  checks.same(answered(() => p.parseDate('2021', made))[0], 'ParseError', 'a description of zeros');
  checks.same(p.format(new Date(0), made), '', 'the text by a description of zeros');
  checks.throws(() => new real.constructor('%Y', new Uint8Array(2 ** 20)), 'TypeError', {}, 'a struct that is too long');
  checks.throws(() => { 'use strict'; real.text = '%m'; }, 'TypeError', {}, 'a description is frozen');
}

function testMoments(p, checks) {
  for (const value of [undefined, null, 5, '2021', Symbol('moment'), 5n, () => {}]) {
    checks.throws(() => p.format(value), 'TypeError', {}, `the moment ${typeof value}`);
  }
  const moment = { year: 2021, month: 1, day: 2, offsetSeconds: 0 };
  for (const name of ['year', 'month', 'day', 'hour', 'minute', 'second', 'millisecond', 'microsecond', 'nanosecond', 'offsetSeconds']) {
    for (const wrong of [null, '1', 1.5, NaN, Infinity, 1n, {}]) {
      checks.throws(() => p.format({ ...moment, [name]: wrong }), 'TypeError', {}, `the ${name} ${String(wrong)}`);
    }
  }
  for (const name of ['year', 'month', 'day', 'offsetSeconds']) checks.throws(() => p.format({ ...moment, [name]: undefined }), 'TypeError', {}, `no ${name}`);
  checks.throws(() => p.format(moment, 'rfc9557'), 'RangeError', {}, 'an unknown format');
  checks.throws(() => p.format(new Date(NaN)), 'RangeError', {}, 'an invalid Date');
  const calling = { ...moment, get second() { p.parse('1985-04-12T23:20:50.52Z'); return 7; } };
  checks.same(p.format(calling), '2021-01-02T00:00:07Z', 'a member that calls the package');
  const [day, hour] = [p.description('%d'), p.description('%H')];
  const describing = { ...moment, get second() { p.format(new Date(0), hour); return 7; } };
  checks.same([p.format(describing, day), p.parseDate('03.01.2021', p.description('%d.%m.%Y')).day], ['02', 3], 'one that loads a description');
}

function testSurrogates(p, checks) {
  for (const [text, index] of LONE) {
    for (const form of [...formsOf(p), p.description('[ignore count:3]')]) {
      for (const call of callsOf(p).slice(0, -1)) checks.throws(() => call(text, form), 'ParseError', { index, component: null, expected: null }, 'a lone surrogate');
    }
    checks.same(p.parseMany([text, '1970-01-01T00:00:01Z']), { epochNanoseconds: BigInt64Array.of(-(2n ** 63n), 1000000000n), rejected: [0] }, 'among others');
  }
  checks.same(p.parseMany(['\ud83d', '\udd50'], p.description('\u{1f550}')).rejected, [0, 1], 'halves of a character');
}

function testOddTexts(p, checks) {
  const odd = ['2021-01-02T03:04:05Z\0', '\x002021-01-02T03:04:05Z', '2021-01-02T03:04:05\u00e9', '\u{1f550}', '2021\u201301-02T03:04:05Z',
    utf8('2021-01-02T03:04:05Z').map((byte) => byte | 128), new Uint8Array([0xff]), new Uint8Array([0xc3]), new Uint8Array(0)];
  for (const text of odd) {
    for (const form of formsOf(p)) {
      for (const call of callsOf(p).slice(0, -1)) checks.same(answered(() => call(text, form))[0], 'ParseError', 'an odd text');
    }
  }
  const next = random(2822);
  const letters = '0123456789012345678901234567890123456789-:.,TZWz+() JanSat\0\u00ff%[]\u{1f550}';
  for (let k = 0; k < 20000; k++) {
    const text = Array.from({ length: next(40) }, () => pick(next, [...letters])).join('');
    const form = pick(next, formsOf(p).slice(0, 3));
    const [call, other] = [pick(next, callsOf(p)), pick(next, callsOf(p))];
    checks.same(answered(() => call(text, form)) === undefined, false, 'a made text');
    answered(() => other('2021', p.description(text)));
    answered(() => p.format(new Date(k), p.description(text)));
  }
}

function testPrefixes(p, checks) {
  for (const text of TEXTS) {
    for (const form of formsOf(p)) {
      for (let length = 0; length <= text.length; length++) {
        const whole = text.slice(0, length);
        for (const call of callsOf(p)) checks.same(answered(() => call(whole, form)), answered(() => call(utf8(whole), form)), whole);
      }
    }
  }
}

function testDetached(p, checks) {
  for (const call of [...callsOf(p), p.parseMany, p.parseMilliseconds]) {
    checks.throws(() => call(detached(utf8('2021-01-02T03:04:05Z'))), 'TypeError', {}, 'a detached buffer');
  }
  const { buffer } = detached(new Uint8Array(8));
  checks.throws(() => p.parseMany(buffer), 'TypeError', {}, 'a detached ArrayBuffer');
  checks.throws(() => p.parseMany([detached(utf8('2021'))]), 'TypeError', {}, 'a detached text');
  const shorter = () => {
    const resizable = new ArrayBuffer(32, { maxByteLength: 64 });
    const view = new Uint8Array(resizable, 16, 16);
    resizable.resize(8);
    return view;
  };
  if (ArrayBuffer.prototype.resize) checks.throws(() => p.parseMany(shorter()), 'TypeError', {}, 'a view out of its buffer');
}

export function test(p, checks) {
  testTypes(p, checks);
  testDescriptions(p, checks);
  testMoments(p, checks);
  testSurrogates(p, checks);
  testOddTexts(p, checks);
  testPrefixes(p, checks);
  testDetached(p, checks);
}

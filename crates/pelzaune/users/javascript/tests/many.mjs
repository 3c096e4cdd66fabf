// Many texts, and the lines of bytes.

import { answered, padded, pick, random, utf8 } from './checks.mjs';

const TEXT = '1970-01-01T00:00:01Z';
const LOG = '%d/%b/%Y:%H:%M:%S %z';
const MAIL = 'Fri, 02 Jan 1970 00:00:00 GMT';
const SECOND = 1000000000n;
const DAY = 86400n * SECOND;
const NO_COUNT = -(2n ** 63n);
const BLOCK = 65536;

/** What `parseMany` returns, as lists. */
function many(p, texts, format) {
  const { epochNanoseconds, rejected } = p.parseMany(texts, format);
  return [[...epochNanoseconds], rejected];
}

/** What `parseMany` has to return, text by text. */
function alone(p, texts, format) {
  const rejected = [];
  const counts = texts.map((text, index) => {
    const moment = answered(() => p.parse(text, format));
    const count = Array.isArray(moment) ? undefined : moment.epochNanoseconds;
    if (count !== undefined && count >= NO_COUNT && count < -NO_COUNT) return count;
    rejected.push(index);
    return NO_COUNT;
  });
  return [counts, rejected];
}

/** What `parseMilliseconds` has to return, text by text. */
function aloneInMilliseconds(p, texts, format) {
  const rejected = [];
  const counts = texts.map((text, index) => {
    const moment = answered(() => p.parse(text, format));
    if (!Array.isArray(moment)) return moment.epochMilliseconds;
    rejected.push(index);
    return NaN;
  });
  return { epochMilliseconds: Float64Array.from(counts), rejected };
}

/** Texts, a third of them damaged. */
function madeTexts(count) {
  const next = random(count + 1);
  return Array.from({ length: count }, () => {
    const date = `${padded(1600 + next(800), 4)}-${padded(1 + next(13), 2)}-${padded(1 + next(31), 2)}`;
    return `${date}T03:04:05${pick(next, ['Z', '.5+05:30', '.123456789Z', '-08:00', '-08', ''])}`;
  });
}

function testIterables(p, checks) {
  const texts = [TEXT, utf8('1970-01-01T00:00:02Z'), '1969-12-31T23:59:59.999999999Z'];
  const expected = [[SECOND, 2n * SECOND, -1n], []];
  const generator = function* generator() { yield* texts; };
  for (const it of [texts, new Set(texts), texts.values(), generator(), new Map(texts.entries()).values()]) {
    checks.same(many(p, it), expected, 'an iterable');
  }
  for (const it of [[], new Set(), generator(), utf8(''), new ArrayBuffer(0)]) {
    if (it instanceof Object && it[Symbol.toStringTag] === 'Generator') it.return();
    checks.same(many(p, it), [[], []], 'nothing');
  }
  const calling = function* calling() {
    for (const text of texts) {
      yield text;
      p.parseMany(utf8('x\ny\n'));
      p.parse(TEXT);
    }
  };
  checks.same(many(p, calling()), expected, 'an iterable that calls the package');
  checks.same([p.parseMany(texts).epochNanoseconds.constructor.name, p.parseMilliseconds(texts).epochMilliseconds.constructor.name],
    ['BigInt64Array', 'Float64Array'], 'the arrays');
}

function testFormats(p, checks) {
  const log = p.description(LOG);
  checks.same(many(p, ['02/Jan/1970:00:00:00 +0000', '01/Jan/1970:00:00:00 -0001', 'x'], log), [[86400n * SECOND, 60n * SECOND, NO_COUNT], [2]], 'a log');
  checks.same(many(p, [TEXT, '1970-01-01 00:00:01Z', '1970-01-01_00:00:01Z'], 'rfc3339'), [[SECOND, SECOND, NO_COUNT], [2]], 'RFC 3339');
  checks.same(many(p, ['Fri, 02 Jan 1970 00:00:00 GMT'], 'rfc2822'), [[86400n * SECOND], []], 'a mail date');
  checks.same(many(p, ['19700102T000000Z', '1970-01-02T00:00:00'], 'iso8601'), [[86400n * SECOND, NO_COUNT], [1]], 'ISO 8601');
  checks.same(many(p, ['1', '-1'], p.description('[unix_timestamp]')), [[SECOND, -SECOND], []], 'a timestamp');
  checks.same(many(p, utf8('1\n-1\n'), p.description('[unix_timestamp]')), [[SECOND, -SECOND], []], 'lines of timestamps');
  checks.same(many(p, ['02.01.1970'], p.description('%d.%m.%Y')), [[NO_COUNT], [0]], 'no moment');
  for (const form of ['%d.%m.%Y %z', '[day].[month].[year] [offset_hour sign:mandatory][offset_minute]']) {
    checks.same(many(p, ['02.01.1970 +0000', '01.01.1970 -0001'], p.description(form)), [[NO_COUNT, NO_COUNT], [0, 1]], 'no time');
  }
}

/** Texts with characters that no format has, among others. */
function testCharacters(p, checks) {
  const odd = [`${TEXT}\0`, `\0${TEXT}`, `${TEXT}\n`, '1970-01-01T00:00:0\u0661Z', '\u00e9', '\u{1f550}', '1970\u201301-01T00:00:00Z', Uint8Array.of(0xff), ''];
  for (const text of odd) checks.same(many(p, [TEXT, text, TEXT]), [[SECOND, NO_COUNT, SECOND], [1]], `among others: ${text}`);
  checks.same(many(p, ['1 Uhr \u00e9', '1 Uhr \u00e8', utf8('1 Uhr \u00e9')], p.description('[unix_timestamp] Uhr \u00e9')), [[SECOND, NO_COUNT, SECOND], [1]], 'an accent');
  checks.same(many(p, utf8(`${TEXT}\n\n1970-01-01T00:00:02Zx\n1969-12-31T23:59:59.5-00:01`)), [[SECOND, NO_COUNT, NO_COUNT, 59500000000n], [1, 2]], 'lines');
}

function testEachAsAlone(p, checks) {
  for (const count of [1, 2, 700, 5000]) {
    const texts = madeTexts(count);
    const lines = utf8(`${texts.join('\n')}\n`);
    checks.same(many(p, texts), alone(p, texts), `${count} texts`);
    checks.same(many(p, texts.map(utf8)), alone(p, texts), `${count} texts in bytes`);
    checks.same(many(p, lines), alone(p, texts), `${count} lines`);
    checks.same(many(p, lines.subarray(0, -1)), alone(p, texts), 'no LF at the end');
    for (const it of [texts, lines, lines.buffer]) {
      checks.same(p.parseMilliseconds(it), aloneInMilliseconds(p, texts), `${count} in milliseconds`);
    }
  }
  const logs = ['02/Jan/2021:03:04:05 -0030', '31/Feb/2021:03:04:05 -0030', '02/Mai/2021:03:04:05 -0030', ''];
  const texts = Array.from({ length: 3000 }, (_, index) => logs[(index * index) % 4]);
  const log = p.description(LOG);
  checks.same(many(p, texts, log), alone(p, texts, log), 'logs');
  checks.same(many(p, utf8(texts.map((it) => `${it}\n`).join('')), log), alone(p, texts, log), 'lines of logs');
  checks.same(p.parseMilliseconds(texts, log), aloneInMilliseconds(p, texts, log), 'logs in milliseconds');
}

function testEnds(p, checks) {
  const [least, below] = ['1677-09-21T00:12:43.145224192Z', '1677-09-21T00:12:43.145224191Z'];
  const [greatest, above] = ['2262-04-11T23:47:16.854775807Z', '2262-04-11T23:47:16.854775808Z'];
  checks.same(many(p, [least, greatest]), [[NO_COUNT, -NO_COUNT - 1n], []], 'the ends');
  for (const count of [1, 4000]) {
    const texts = Array.from({ length: count }, () => [least, below, greatest, above, '?', '0000-01-01T00:00:00Z']).flat();
    checks.same(many(p, texts), alone(p, texts), `${count} times the ends`);
    checks.same(many(p, utf8(texts.join('\n'))), alone(p, texts), `${count} times the ends in lines`);
    checks.same(p.parseMilliseconds(texts), aloneInMilliseconds(p, texts), 'all are in the range of milliseconds');
    checks.same(p.parseMilliseconds(utf8(texts.join('\n'))), aloneInMilliseconds(p, texts), 'also in lines');
  }
}

function testMilliseconds(p, checks) {
  const next = random(1000);
  const texts = Array.from({ length: 3000 }, () => {
    const seconds = next(2) === 0 ? next(2147483646) : -next(2147483646);
    return `${new Date(seconds * 4000).toISOString().slice(0, 19)}.${padded(next(1000), 3)}${padded(next(1000000), 6)}Z`;
  });
  checks.same(p.parseMilliseconds(texts).epochMilliseconds, Float64Array.from(texts, (it) => Date.parse(`${it.slice(0, 23)}Z`)), 'beside Date.parse');
}

function testLineEnds(p, checks) {
  for (const form of ['rfc3339', '[unix_timestamp]\n', '[unix_timestamp][optional [\n]]', '[optional [\n]][unix_timestamp][optional [\n2]]']) {
    const description = form === 'rfc3339' ? form : p.description(form);
    for (const count of [1, 3, 40, 5000]) {
      for (const kinds of [['1\n'], ['1\n', '1', '\n1', '\n', '', '1\n2', '\n1\n2', TEXT, `${TEXT}\n`, `${TEXT}\n${TEXT}`]]) {
        const texts = Array.from({ length: count }, (_, index) => kinds[(index * index) % kinds.length]);
        checks.same(many(p, texts, description), alone(p, texts, description), `a text with LF by ${form}`);
      }
    }
  }
  checks.same(many(p, utf8(`\n${TEXT}\n\n${TEXT}`)), [[NO_COUNT, SECOND, NO_COUNT, SECOND], [0, 2]], 'empty lines');
}

/** Compares the columns of bytes with the expected counts, and the bytes with what they were. */
function compareLines(p, checks, text, format, counts, what) {
  const lines = utf8(text);
  const rejected = counts.flatMap((count, index) => (count === NO_COUNT ? [index] : []));
  const epochMilliseconds = Float64Array.from(counts, (count) => (count === NO_COUNT ? NaN : Number(count / 1000000n)));
  checks.same(many(p, lines, format), [counts, rejected], what);
  checks.same(p.parseMilliseconds(lines, format), { epochMilliseconds, rejected }, `${what} in milliseconds`);
  checks.isTrue(utf8(text).every((byte, index) => byte === lines[index]), `${what} is unchanged`);
}

/** A CR at the end of a line is part of that end, also where the last line has no LF. Any other is a byte of the line. */
function testReturns(p, checks) {
  const stamp = p.description('[unix_timestamp]');
  const ended = p.description('[unix_timestamp]\r');
  const rows = [
    [`${TEXT}\r\n${TEXT}\r\n`, undefined, [SECOND, SECOND]],
    [`${TEXT}\n${TEXT}\r\n${TEXT}`, undefined, [SECOND, SECOND, SECOND]],
    [`\r\n${TEXT}\r\r\n${TEXT}\r`, undefined, [NO_COUNT, NO_COUNT, SECOND]],
    [`\r${TEXT}\n\r\n\r`, undefined, [NO_COUNT, NO_COUNT, NO_COUNT]],
    [`${MAIL}\r\n?\r\n${MAIL} (x)\r\n${MAIL}\r\r\n`, 'rfc2822', [DAY, NO_COUNT, DAY, NO_COUNT]],
    ['1970-01-02T00Z\r\n?\r\n19700102T000000Z\r\n1970-01-02T00Z\r\r\n', 'iso8601', [DAY, NO_COUNT, DAY, NO_COUNT]],
    ['1\r\n2\r\n', stamp, [SECOND, 2n * SECOND]],
    ['1\r\r\n2', ended, [SECOND, NO_COUNT]],
    ['1\r\n2\r\r', ended, [NO_COUNT, 2n * SECOND]],
    ['1\r\r\n2\r', ended, [SECOND, NO_COUNT]],
  ];
  for (const [text, format, counts] of rows) compareLines(p, checks, text, format, counts, JSON.stringify(text));
  for (const texts of [[`${TEXT}\r`, TEXT], [`${TEXT}\r`], [utf8(`${TEXT}\r\n`), TEXT]]) {
    checks.same(many(p, texts)[1], [0], 'a text of a list is no line');
  }
  checks.same(many(p, ['1\r', '2\r', '3'], ended), [[SECOND, 2n * SECOND, NO_COUNT], [2]], 'texts that end with a CR');
}

/** CR LF around the ends of blocks, and lines that are longer than a block. */
function testReturnsOfBlocks(p, checks) {
  const lengths = [...Array.from({ length: 48 }, (_, index) => BLOCK - 24 + index), 2 * BLOCK - 1, 2 * BLOCK, 3 * BLOCK];
  for (const length of lengths) {
    const zeros = '0'.repeat(length - 21);
    const [first, second] = ['x'.repeat(length), `1970-01-01T00:00:02.${zeros}Z`];
    compareLines(p, checks, `${first}\r\n${TEXT}\n${second}\r\n${TEXT}\r\n`, undefined, [NO_COUNT, SECOND, 2n * SECOND, SECOND], `a line of ${length}`);
  }
  const next = random(7);
  for (let round = 0; round < 5; round++) {
    const texts = Array.from({ length: 4000 }, () => pick(next, [TEXT, '?', '', `1970-01-01T00:00:02.${'0'.repeat(1 + next(4000))}Z`]));
    const counts = texts.map((text) => ({ [TEXT]: SECOND, '?': NO_COUNT, '': NO_COUNT })[text] ?? 2n * SECOND);
    compareLines(p, checks, texts.map((text) => text + pick(next, ['\n', '\r\n'])).join(''), undefined, counts, 'lines of both kinds');
  }
}

/** Two lines that are together as long as the line before, and lines of many lengths. */
function testLengths(p, checks) {
  const longMail = 'Fri, 02 Jan 1970   00:00:00 GMT';
  const rows = [
    [`${TEXT}\n1970-01-01\n00:00:01Z\n${TEXT}`, 'rfc3339', [SECOND, NO_COUNT, NO_COUNT, SECOND]],
    [`${TEXT}\n1970-01-01\n00:00:01Z\n${TEXT}\n`, 'iso8601', [SECOND, NO_COUNT, NO_COUNT, SECOND]],
    [`${TEXT}\n${'\n'.repeat(20)}${TEXT}`, 'rfc3339', [SECOND, ...Array(20).fill(NO_COUNT), SECOND]],
    // A mail date may be folded.
    [`${longMail}\nFri, 02 Jan 1970\r\n 00:00:00 GMT\n${longMail}`, 'rfc2822', [DAY, NO_COUNT, NO_COUNT, DAY]],
  ];
  for (const [text, format, counts] of rows) compareLines(p, checks, text, format, counts, JSON.stringify(text));
  const next = random(20);
  const pool = [TEXT, TEXT, '1970-01-01T00:00:02.5Z', '1970-01-01T00:00:02,5Z', '1970-01-01', '00:00:01Z', '', 'x', `${TEXT}Z`,
    '1970-01-01T00:00:01+00:00', '19700101T000001Z', MAIL, longMail, '9999-12-31T23:59:59Z'];
  for (let k = 0; k < 600; k++) {
    const format = pick(next, ['rfc3339', 'rfc2822', 'iso8601']);
    const lines = [...Array.from({ length: 1 + next(30) }, () => pick(next, pool)), pick(next, [TEXT, 'y'])];
    const text = utf8(lines.join('\n') + pick(next, ['', '\n']));
    checks.same(many(p, text, format), alone(p, lines, format), `lines by ${format}`);
    checks.same(p.parseMilliseconds(text, format), aloneInMilliseconds(p, lines, format), `lines by ${format} in milliseconds`);
    checks.same(many(p, lines, format), alone(p, lines, format), `texts by ${format}`);
  }
}

function testLong(p, checks) {
  const long = [1, 9, 1000, 1000000].map((length) => `1970-01-01T00:00:01.${'0'.repeat(length)}Z`);
  checks.same(many(p, long), [[SECOND, SECOND, SECOND, SECOND], []], 'long texts');
  checks.same(many(p, utf8(long.join('\n'))), [[SECOND, SECOND, SECOND, SECOND], []], 'long lines');
  for (const length of [BLOCK - 2, BLOCK - 1, BLOCK, BLOCK + 1, 2 * BLOCK, 3 * BLOCK + 7, Math.floor(BLOCK / 3)]) {
    const texts = [TEXT, 'x'.repeat(length), `1970-01-01T00:00:01.0${'0'.repeat(length)}Z`, '', 'é'.repeat(length), TEXT].flatMap((it) => [it, it]);
    checks.same(many(p, texts), alone(p, texts), `a text of ${length}`);
    for (const end of ['', '\n']) checks.same(many(p, utf8(texts.join('\n') + end)), alone(p, texts), `a line of ${length}`);
    checks.same(p.parseMilliseconds(utf8(texts.join('\n'))), aloneInMilliseconds(p, texts), `a line of ${length} in milliseconds`);
  }
  checks.same(many(p, utf8('\n'.repeat(BLOCK + 5)))[1].length, BLOCK + 5, 'as many lines as bytes');
}

function testBytes(p, checks) {
  const bytes = Uint8Array.of(...utf8(TEXT), 10, 0xff, 0xc3, 10, 0, 10, ...utf8(TEXT), 0x80);
  checks.same(many(p, bytes), [[SECOND, NO_COUNT, NO_COUNT, NO_COUNT], [1, 2, 3]], 'bytes that are not UTF-8');
  const inside = new Uint8Array([...utf8('xx'), ...utf8(`${TEXT}\n${TEXT}`), 120]);
  checks.same(many(p, inside.subarray(2, -1)), [[SECOND, SECOND], []], 'a part of a buffer');
  if (typeof SharedArrayBuffer !== 'undefined') {
    const shared = new Uint8Array(new SharedArrayBuffer(20));
    shared.set(utf8(TEXT));
    checks.same([many(p, shared), many(p, shared.buffer)], [[[SECOND], []], [[SECOND], []]], 'shared bytes');
  }
}

function testWrong(p, checks) {
  for (const call of [p.parseMany, p.parseMilliseconds]) {
    for (const wrong of [undefined, null, 5, 5n, TEXT, {}, () => {}, new DataView(new ArrayBuffer(4)), Symbol('texts')]) {
      checks.throws(() => call(wrong), 'TypeError', {}, `texts of ${typeof wrong}`);
    }
    for (const wrong of [null, undefined, 5, [], [TEXT], new Float64Array(1), { length: 3 }, new Date()]) {
      for (const before of [0, 1, 3000]) {
        const error = checks.throws(() => call([...Array(before).fill(TEXT), wrong]), 'TypeError', {}, `a text of ${typeof wrong}`);
        checks.isTrue(error?.message.includes(`text ${before} `), error?.message);
      }
    }
    checks.throws(() => call(new Float64Array(2)), 'TypeError', {}, 'an array of numbers');
    checks.throws(() => call([TEXT, , TEXT]), 'TypeError', {}, 'a hole'); // eslint-disable-line no-sparse-arrays
  }
  const ended = [];
  const iterable = { [Symbol.iterator]: () => ({ next: () => ({ value: 5, done: false }), return: () => { ended.push(1); return {}; } }) };
  checks.throws(() => p.parseMany(iterable), 'TypeError', {}, 'an iterator');
  checks.same(ended, [1], 'the iterator is closed');
  checks.throws(() => p.parseMany((function* raising() { yield TEXT; throw new RangeError('mine'); })()), 'RangeError', { message: 'mine' }, 'its own error');
}

export function test(p, checks) {
  testIterables(p, checks);
  testFormats(p, checks);
  testCharacters(p, checks);
  testEachAsAlone(p, checks);
  testEnds(p, checks);
  testMilliseconds(p, checks);
  testLineEnds(p, checks);
  testReturns(p, checks);
  testReturnsOfBlocks(p, checks);
  testLengths(p, checks);
  testLong(p, checks);
  testBytes(p, checks);
  testWrong(p, checks);
}

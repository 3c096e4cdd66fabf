// The errors of texts, of descriptions and of moments: the tables of the Python module.

import { utf8 } from './checks.mjs';
import { formOf } from './values.mjs';

const SEPARATOR = "the 'separator' component could not be parsed";
const TRAILING = 'unexpected trailing characters; the end of input was expected';

// A text, its format, and the message, component, index and expectation of its error.
const TEXTS = [
  ['2021-13-02T03:04:05Z', 'rfc3339', 'month is out of range', 'month', 5, 'month'],
  ['1970-13-01T00:00:00Z', 'rfc3339', 'month is out of range', 'month', 5, 'month'],
  ['2021-02-29T03:04:05Z', 'rfc3339', 'day is out of range for the other components', 'day', null, null],
  ['2021-02-30T03:04:05Z', 'rfc3339', 'day is out of range for the other components', 'day', null, null],
  ['1970-02-30T00:00:00Z', 'rfc3339', 'day is out of range for the other components', 'day', null, null],
  ['2021-01-02T03:04:0\u0665Z', 'rfc3339', "the 'second' component could not be parsed", 'second', 17, 'second'],
  ['', 'rfc3339', "the 'year' component could not be parsed", 'year', 0, 'year'],
  ['2021-01-02T03:04:05Z\n', 'rfc3339', TRAILING, null, 20, 'the end'],
  ['2021-01-02T03:04:05Zx', 'rfc3339', TRAILING, null, 20, 'the end'],
  ['2021-01-02T03:04:05Z\u{1f550}', 'rfc3339', TRAILING, null, 20, 'the end'],
  ['2021/01-02T03:04:05Z', 'rfc3339', 'a character literal was not valid', null, 4, "'-'"],
  ['1985-04-12923:20:50Z', 'rfc3339', SEPARATOR, 'separator', 10, 'separator'],
  ['1985-04-12_23:20:50Z', 'rfc3339', SEPARATOR, 'separator', 10, 'separator'],
  ['1985-13-12923:20:50Z', 'rfc3339', SEPARATOR, 'separator', 5, 'month'],
  ['2021-01-02', 'iso8601', 'missing hour', 'hour', null, null],
  ['2021-01-02T03:04', 'iso8601', 'missing offset', 'offset hour', null, null],
  ['02/Jan', '%d/%b', 'missing year', 'year', null, null],
  ['2021-13', 'iso8601', undefined, undefined, null, null],
  ['2021-13-02', 'iso8601', undefined, undefined, 7, undefined],
  ['02/Jan-2021', '%d/%b/%Y', 'a character literal was not valid', null, 6, "'/'"],
  ['02/Jan', '%d/%b/%Y', 'a character literal was not valid', null, 6, "'/'"],
  ['2021-02', '[year]-[month]-[day]', 'a character literal was not valid', null, 7, "'-'"],
  ['2021-w02', '[year]-W[day]', 'a character literal was not valid', null, 5, "'W'"],
  ['Sat 02 Jan 2021 03:04 +0607', 'rfc2822', undefined, undefined, 3, undefined],
  ['02 Jan 2021 03:04: +0607', 'rfc2822', undefined, undefined, 19, undefined],
  ['\u00e9\u{1f550} 2021x', '\u00e9\u{1f550} [year]', TRAILING, null, 8, 'the end'],
  ['\u00e9\u{1f550} 20y1', '\u00e9\u{1f550} [year]', "the 'year' component could not be parsed", 'year', 4, 'year'],
  ['2021-03', '[year]\u00e9[month]', 'a character literal was not valid', null, 4, "'\\xc3'"],
];

// A description, and the message and index of its error.
const DESCRIPTIONS = [
  ['[year]-[moth]', 'no component has that name', 8],
  ['[yaer]', 'no component has that name', 1],
  ['\u00e9\u{1f550}[yaer]', 'no component has that name', 4],
  ['%Z', 'that is not supported in a description', 0],
  ['-'.repeat(65), 'the description is too long', null],
];

function testTexts(p, checks) {
  for (const [text, format, message, component, index, expected] of TEXTS) {
    const form = formOf(p, format);
    const all = { message, component, index, expected };
    const members = Object.fromEntries(Object.entries(all).filter(([, value]) => value !== undefined));
    checks.throws(() => p.parse(text, form), 'ParseError', members, text);
    const length = index === null ? null : utf8(text.slice(0, index)).length;
    const inBytes = checks.throws(() => p.parse(utf8(text), form), 'ParseError', { index: length }, `${text} in bytes`);
    if (message === TRAILING || message === 'month is out of range') {
      for (const call of [p.parsePlain, p.parseDate, p.parseTime, p.parseParts]) checks.throws(() => call(text, form), 'ParseError', { index }, text);
    }
    checks.isTrue(inBytes instanceof RangeError && inBytes instanceof Error, 'its class');
  }
}

/** RFC 3339 has `T`, `t` or a space between date and time. */
function testSeparators(p, checks) {
  for (const separator of ['9', '_', '-', ':', '\t']) {
    const text = `1985-04-12${separator}23:20:50Z`;
    for (const form of [undefined, 'rfc3339', 'RFC3339']) {
      for (const call of [p.parse, p.parsePlain, p.parseDate, p.parseTime, p.parseParts]) {
        checks.throws(() => call(text, form), 'ParseError', { message: SEPARATOR, component: 'separator', index: 10, expected: 'separator' }, text);
      }
      for (const texts of [[text], utf8(text)]) checks.same(p.parseMany(texts, form).rejected, [0], text);
    }
  }
}

function testLocate(p, checks) {
  const place = (text, form) => {
    const found = p.locate(text, form);
    return found && [found.index, found.expected, found.component];
  };
  checks.same(place('2021-13-02T03:04:05Z'), [5, 'month', 'month'], 'a component');
  checks.same(place('2021-01-02T03:04:05Z'), null, 'no error');
  checks.same(place('2021-02-30T03:04:05Z', 'rfc3339'), null, 'an impossible date');
  checks.same(place('2021-01-02 03', 'rfc3339'), [13, "':'", null], 'a short text');
  checks.same(place('2021-01-02_03:04:05Z'), [10, 'separator', 'separator'], 'another separator');
  checks.same(place('\u{1f550}', p.description('\u{1f550}[year]')), [2, 'year', 'year'], 'after two units');
  checks.same(place('2021-13', 'iso8601'), null, 'a date of another kind');
  checks.same(p.locate('2021-13-02', 'iso8601').index, 7, 'the index of a date of another kind');
  checks.same(place('2021\ud800'), [4, null, null], 'a lone surrogate');
}

function testDescriptions(p, checks) {
  for (const [text, message, index] of DESCRIPTIONS) {
    const error = checks.throws(() => p.description(text), 'DescriptionError', { message, index, component: null, expected: null }, text);
    checks.isTrue(error instanceof RangeError, 'its class');
  }
  checks.throws(() => p.description('%Y\ud800'), 'DescriptionError', { index: 2 }, 'a lone surrogate');
}

function testMoments(p, checks) {
  const moment = { year: 1899, month: 1, day: 2, hour: 3, minute: 4, second: 5, offsetSeconds: 0 };
  const why = (changed, format, members) => checks.throws(() => p.format({ ...moment, ...changed }, format), 'FormatError', members, JSON.stringify(changed));
  why({}, 'rfc2822', { message: "the 'year' component has no text in that format", component: 'year' });
  why({ year: 10000 }, 'rfc3339', { component: 'year' });
  why({ year: -1 }, 'rfc3339', { component: 'year' });
  why({ year: 2 ** 40 }, 'rfc3339', { component: 'year', message: 'year is out of range' });
  why({ offsetSeconds: 1 }, 'rfc3339', { component: 'offset second' });
  why({ offsetSeconds: 2 ** 40 }, 'rfc3339', { component: 'seconds' });
  for (const wrong of [0, 13, 256 + 1, 2 ** 40, -1]) why({ month: wrong }, 'rfc3339', { message: 'month is out of range', component: 'month' });
  for (const wrong of [24, 256, -1]) why({ hour: wrong }, 'iso8601', { message: 'hour is out of range', component: 'hour' });
  for (const name of ['millisecond', 'microsecond', 'nanosecond']) {
    for (const wrong of [1000, -1, 2 ** 32]) why({ [name]: wrong }, 'iso8601', { component: 'nanosecond' });
  }
  why({ month: 2, day: 29 }, 'rfc3339', { message: 'day is out of range for the other components', component: 'day' });
}

export function test(p, checks) {
  testTexts(p, checks);
  testSeparators(p, checks);
  testLocate(p, checks);
  testDescriptions(p, checks);
  testMoments(p, checks);
}

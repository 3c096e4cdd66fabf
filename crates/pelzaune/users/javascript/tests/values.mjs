// The values of texts: the tables of the Python module, and random moments beside Date, Intl and Temporal.

import { answered, padded, pick, random, utf8 } from './checks.mjs';

const LOG = '%d/%b/%Y:%H:%M:%S %z';
const LOG_BRACKETS = '[day]/[month repr:short]/[year]:[hour]:[minute]:[second] [offset_hour sign:mandatory][offset_minute]';

/** The members of a value, in order. */
const plainly = (value) => Object.values(value).join(' ');

const MOMENTS = [
  ['rfc3339', '2021-01-02T03:04:05.25-00:30', '2021 1 2 3 4 5 250 0 0 -1800'],
  ['rfc3339', '1985-04-12T23:20:50.52Z', '1985 4 12 23 20 50 520 0 0 0'],
  ['rfc3339', '2021-01-02t03:04:05z', '2021 1 2 3 4 5 0 0 0 0'],
  ['rfc3339', '2021-01-02 03:04:05Z', '2021 1 2 3 4 5 0 0 0 0'],
  ['rfc3339', '2021-01-02T03:04:05.123456789+05:30', '2021 1 2 3 4 5 123 456 789 19800'],
  ['rfc3339', '0000-01-01T00:00:00Z', '0 1 1 0 0 0 0 0 0 0'],
  ['rfc3339', '1990-12-31T23:59:60Z', '1990 12 31 23 59 59 999 999 999 0'],
  ['rfc2822', 'Sat, 02 Jan 2021 03:04:05 +0607', '2021 1 2 3 4 5 0 0 0 22020'],
  ['rfc2822', 'Fri, 21 Nov 97 09:55:06 EST', '1997 11 21 9 55 6 0 0 0 -18000'],
  ['rfc2822', 'Thu, 13 Feb 1969 23:32 -0330 (a comment)', '1969 2 13 23 32 0 0 0 0 -12600'],
  ['iso8601', '2020-W53-6T03Z', '2021 1 2 3 0 0 0 0 0 0'],
  ['iso8601', '2021-01-02T03:04:05,25-00:30', '2021 1 2 3 4 5 250 0 0 -1800'],
  ['iso8601', '20210102T0304Z', '2021 1 2 3 4 0 0 0 0 0'],
  ['iso8601', '2020W536T0304.5Z', '2021 1 2 3 4 30 0 0 0 0'],
  ['iso8601', '+012021-01-02T03,5-0530', '12021 1 2 3 30 0 0 0 0 -19800'],
  ['iso8601', '2020-366T23:59:60Z', '2020 12 31 23 59 59 999 999 999 0'],
  ['iso8601', '-012345-01-02T03:04:05+24:00', '-12345 1 2 3 4 5 0 0 0 86400'],
  ['iso8601', '2021-01-02T03:04:05+24:00', '2021 1 2 3 4 5 0 0 0 86400'],
  ['rfc3339', '0000-01-02T03:04:05Z', '0 1 2 3 4 5 0 0 0 0'],
  [LOG, '02/Jan/2021:03:04:05 -0030', '2021 1 2 3 4 5 0 0 0 -1800'],
  [LOG_BRACKETS, '02/Jan/2021:03:04:05 -0030', '2021 1 2 3 4 5 0 0 0 -1800'],
  ['[unix_timestamp]', '-1', '1969 12 31 23 59 59 0 0 0 0'],
];

const PLAIN = [
  ['iso8601', '20210102T030405,25', '2021 1 2 3 4 5 250 0 0'],
  ['rfc3339', '2021-01-02T03:04:05.25-00:30', '2021 1 2 3 4 5 250 0 0'],
  ['%d.%m.%Y %H:%M', '02.01.2021 03:04', '2021 1 2 3 4 0 0 0 0'],
];

const DATES = [
  ['iso8601', '2020-366', '2020 12 31'],
  ['iso8601', '2020-W53-6', '2021 1 2'],
  ['iso8601', '2020W536', '2021 1 2'],
  ['iso8601', '+012345-01-02', '12345 1 2'],
  ['rfc3339', '2021-01-02T03:04:05Z', '2021 1 2'],
  ['[year]-[month]-[day]', '2021-03-04', '2021 3 4'],
  ['%d.%m.%Y', '02.01.2021', '2021 1 2'],
];

const TIMES = [
  ['iso8601', 'T03:04,5', '3 4 30 0 0 0'],
  ['iso8601', 'T03:04.5', '3 4 30 0 0 0'],
  ['[hour repr:12 padding:none]:[minute] [period]', '1:05 PM', '13 5 0 0 0 0'],
  ['%H:%M:%S', '23:59:59', '23 59 59 0 0 0'],
];

/** A format of a table: a name, or a description. */
export function formOf(p, text) {
  return /^[a-z]+\d+$/i.test(text) ? text : p.description(text);
}

function testTables(p, checks) {
  const tables = [[p.parse, MOMENTS], [p.parsePlain, PLAIN], [p.parseDate, DATES], [p.parseTime, TIMES]];
  for (const [call, rows] of tables) {
    for (const [format, text, expected] of rows) {
      for (const given of [text, utf8(text)]) {
        checks.same(answered(() => plainly(call(given, formOf(p, format)))), expected, `${text} by ${format}`);
      }
    }
  }
  checks.same(plainly(p.parse('1985-04-12T23:20:50.52Z')), '1985 4 12 23 20 50 520 0 0 0', 'the default format');
  checks.same(plainly(p.parse('1985-04-12T23:20:50.52Z', undefined)), '1985 4 12 23 20 50 520 0 0 0', 'format undefined');
}

function testParts(p, checks) {
  const parts = (text, format) => {
    const { date, time, offsetSeconds } = p.parseParts(text, format);
    return [date && plainly(date), time && plainly(time), offsetSeconds];
  };
  checks.same(parts('2020-W53-5', 'iso8601'), ['2021 1 1', null, null], 'a date');
  checks.same(parts('23:59 -0030', p.description('%H:%M %z')), [null, '23 59 0 0 0 0', -1800], 'a time and an offset');
  checks.same(parts('2021-01-02T03:04:05.5Z'), ['2021 1 2', '3 4 5 500 0 0', 0], 'all parts');
  checks.same(parts('0000-05-13 +2559', p.description('%Y-%m-%d %z')), ['0 5 13', null, 93540], 'the largest offset');
  checks.same(parts('+05', p.description('[offset_hour]')), [null, null, 18000], 'an offset');
  checks.throws(() => parts('2021-02-30T03:04:05Z'), 'ParseError', { component: 'day', index: null }, 'an impossible date');
}

/** A text without a complete date, time or offset, though it matches its format. */
function testNoPart(p, checks) {
  const none = { message: 'the text has no complete date, time or offset', component: null, index: null, expected: null };
  const rows = [
    ['', ''], ['x', 'x'], ['2021', '%Y'], ['2021-01', '[year]-[month]'], [':30', ':[minute]'], ['', '[optional [[hour]]]'],
    ['10', '[subsecond]'], ['1', '%s'],
  ];
  for (const [text, form] of rows) {
    for (const given of [text, utf8(text)]) checks.throws(() => p.parseParts(given, p.description(form)), 'ParseError', none, `no part in ${text}`);
  }
}

/** A text of ISO 8601 is a moment if and only if it has a date, a time and an offset. */
function testPartsOfIso(p, checks) {
  const next = random(8601);
  const kinds = [
    ['2021-01-02', '20210102', '2020-W53-6', '2020W536', '2020-366', '+012021-01-02'],
    ['T', 't', ' ', ''],
    ['03', '03:04', '0304', '03:04:05', '030405', '03,5', '03:04.5', '23:59:60'],
    ['', '', 'Z', 'z', '+05', '-0530', '+05:30', '-08:00', 'T', '+'],
  ];
  for (let k = 0; k < 5000; k++) {
    const text = kinds.map((kind) => pick(next, kind)).join('');
    const parts = answered(() => p.parseParts(text, 'iso8601'));
    if (Array.isArray(parts)) continue;
    const { date, time, offsetSeconds } = parts;
    checks.isTrue(date !== null || time !== null || offsetSeconds !== null, `a part of ${text}`);
    const isWhole = date !== null && time !== null && offsetSeconds !== null;
    const moment = answered(() => p.parse(text, 'iso8601'));
    checks.same(Array.isArray(moment) ? null : plainly(moment), isWhole ? `${plainly(date)} ${plainly(time)} ${offsetSeconds}` : null, text);
  }
}

/** The names of formats ignore case. */
function testNames(p, checks) {
  const texts = { rfc3339: '1970-01-02T00:00:00Z', rfc2822: 'Fri, 02 Jan 1970 00:00:00 GMT', iso8601: '1970-W01-5T00Z' };
  for (const [name, text] of Object.entries(texts)) {
    for (const form of [name, name.toUpperCase(), name[0].toUpperCase() + name.slice(1)]) {
      checks.same(p.parse(text, form).epochSeconds, 86400, form);
      for (const call of [p.parsePlain, p.parseDate, p.parseTime, p.parseParts, p.locate]) checks.same(call(text, form), call(text, name), form);
      for (const call of [p.parseMany, p.parseMilliseconds]) checks.same(call([text], form), call([text], name), form);
      checks.same(p.parse(p.format(new Date(86400000), form), form).epochSeconds, 86400, `as ${form}`);
    }
  }
}

function testInstants(p, checks) {
  const nanoseconds = (text) => p.parse(text).epochNanoseconds;
  checks.same(nanoseconds('1969-12-31T23:59:59.999999999Z'), -1n, 'before 1970');
  checks.same(nanoseconds('2262-04-11T23:47:16.854775808Z'), 2n ** 63n, 'more than 64 bits');
  checks.same(nanoseconds('1677-09-21T00:12:43.145224191Z'), -(2n ** 63n) - 1n, 'less than 64 bits');
  const before = p.parse('1969-12-31T23:59:59.9999Z');
  checks.same([before.epochMilliseconds, before.epochSeconds], [-1, -1], 'rounded down');
  checks.same(before.toDate().getTime(), -1, 'as a Date');
  checks.throws(() => p.parse('+300000-01-01T00:00:00Z', 'iso8601').toDate(), 'RangeError', {}, 'no Date');
  const leap = p.parse('2016-12-31T23:59:60Z');
  checks.same(leap.epochNanoseconds, 1483228799999999999n, 'a leap second');
}

function testOffsets(p, checks) {
  for (let minutes = -1439; minutes <= 1439; minutes++) {
    const size = Math.abs(minutes);
    const text = `2021-01-02T03:04:05${minutes < 0 ? '-' : '+'}${padded(Math.floor(size / 60), 2)}:${padded(size % 60, 2)}`;
    checks.same(p.parse(text).offsetSeconds, 60 * minutes, text);
    checks.same(p.parse(text).epochMilliseconds, Date.parse(text), text);
  }
}

/** A random moment between the years, as a Date. */
function randomDate(next, least, most) {
  const from = Date.UTC(2000, 0, 1) + (least - 2000) * 31556952000;
  const range = (most - least) * 31556952;
  return new Date(from + 1000 * next(Math.min(range, 2147483646)) + 1000 * next(Math.max(range - 2147483646, 1)) + next(1000));
}

function testBesideDate(p, checks) {
  const next = random(3339);
  for (let k = 0; k < 3000; k++) {
    // A mail date has a year from 1900 on.
    const date = randomDate(next, 1901, 9000);
    const day = `${date.getUTCFullYear()} ${date.getUTCMonth() + 1} ${date.getUTCDate()}`;
    const time = `${date.getUTCHours()} ${date.getUTCMinutes()} ${date.getUTCSeconds()} ${date.getUTCMilliseconds()} 0 0`;
    for (const format of ['rfc3339', 'iso8601']) {
      const moment = p.parse(date.toISOString(), format);
      checks.same([moment.epochMilliseconds, moment.toDate().getTime()], [date.getTime(), date.getTime()], date.toISOString());
      checks.same(plainly(p.parseDate(date.toISOString(), format)), day, date.toISOString());
      checks.same(plainly(p.parseTime(date.toISOString(), format)), time, date.toISOString());
    }
    checks.same(plainly(p.parsePlain(date.toISOString().slice(0, -1), 'iso8601')), `${day} ${time}`, date.toISOString());
    checks.same(p.parse(date.toUTCString(), 'rfc2822').epochSeconds, Math.floor(date.getTime() / 1000), date.toUTCString());
    checks.same(p.format(date, 'rfc2822').replace('+0000', 'GMT'), date.toUTCString(), 'as a mail date');
    checks.same(p.parse(p.format(date)).epochMilliseconds, date.getTime(), 'as RFC 3339');
  }
}

function testBesideTemporal(p, checks) {
  const { Temporal } = globalThis;
  if (Temporal === undefined) {
    checks.throws(() => p.parse('1985-04-12T23:20:50Z').toInstant(), 'TypeError', { message: 'this engine has no Temporal' }, 'Temporal');
    return;
  }
  const next = random(9557);
  for (let k = 0; k < 1000; k++) {
    const offset = pick(next, ['Z', '+05:30', '-08:00', '+00:01']);
    const fraction = pick(next, ['', '.5', '.123456789', `.${padded(next(1000000), 6)}`]);
    const text = `${padded(next(9999), 4)}-${padded(1 + next(12), 2)}-${padded(1 + next(28), 2)}T${padded(next(24), 2)}:04:05${fraction}${offset}`;
    const moment = p.parse(text);
    checks.isTrue(moment.toInstant().equals(Temporal.Instant.from(text)), `${text} as an Instant`);
    checks.isTrue(moment.toZonedDateTime().toPlainDateTime().equals(p.parsePlain(text).toPlainDateTime()), `${text} zoned`);
    checks.isTrue(p.parsePlain(text).toPlainDateTime().equals(Temporal.PlainDateTime.from(text.replace(/(Z|[+-]\d\d:\d\d)$/, ''))), text);
    checks.same(p.parse(p.format(moment.toZonedDateTime())).epochNanoseconds, moment.epochNanoseconds, `${text} written`);
    checks.same(p.format(moment.toInstant()).slice(-1), 'Z', `${text} written in UTC`);
  }
  checks.same(p.parse('2021-07-01T12:00:00Z').toZonedDateTime('Europe/Berlin').hour, 14, 'in a time zone');
  checks.same(p.parseDate('2020-366', 'iso8601').toPlainDate().toString(), '2020-12-31', 'a PlainDate');
  checks.same(p.parseTime('T03:04,5', 'iso8601').toPlainTime().toString(), '03:04:30', 'a PlainTime');
  const odd = p.parse('2021-01-02 03:04:05 +01:02:03', p.description('[year]-[month]-[day] [hour]:[minute]:[second] [offset_hour sign:mandatory]:[offset_minute]:[offset_second]'));
  checks.throws(() => odd.toZonedDateTime(), 'RangeError', {}, 'an offset with seconds');
  checks.same(odd.toInstant().epochNanoseconds, odd.epochNanoseconds, 'its instant');
}

/** Texts with the names of months and days, and with a day of the year. */
function testStrftime(p, checks) {
  const next = random(2822);
  const month = new Intl.DateTimeFormat('en', { month: 'long', timeZone: 'UTC' });
  const weekday = new Intl.DateTimeFormat('en', { weekday: 'long', timeZone: 'UTC' });
  const two = (number) => padded(number, 2);
  for (let k = 0; k < 1000; k++) {
    const date = new Date(Date.UTC(1000 + next(9000), next(12), 1 + next(28), next(24), next(60)));
    const [year, hour, minute] = [date.getUTCFullYear(), date.getUTCHours(), date.getUTCMinutes()];
    const dayOfYear = 1 + Math.floor((date - Date.UTC(year)) / 86400000);
    const texts = {
      '%Y-%m-%d %H:%M': `${year}-${two(date.getUTCMonth() + 1)}-${two(date.getUTCDate())} ${two(hour)}:${two(minute)}`,
      '%d %B %Y, %I:%M %p': `${two(date.getUTCDate())} ${month.format(date)} ${year}, ${two(hour % 12 || 12)}:${two(minute)} ${hour < 12 ? 'AM' : 'PM'}`,
      '%H:%M on %A, %Y-%j': `${two(hour)}:${two(minute)} on ${weekday.format(date)}, ${year}-${padded(dayOfYear, 3)}`,
    };
    for (const [form, text] of Object.entries(texts)) {
      checks.same(plainly(p.parsePlain(text, p.description(form))), plainly(p.parsePlain(date.toISOString())), `${text} by ${form}`);
      checks.same(p.format(date, p.description(form)), text, `written by ${form}`);
    }
  }
}

function testDescriptions(p, checks) {
  for (const text of [LOG, LOG_BRACKETS, '', '[year]-[month][optional [-[day]]]', 'Uhr é\u{1f550}']) {
    checks.same(p.description(text).text, text, `the text of ${text}`);
  }
  const [first, second] = [p.description('%d.%m.%Y'), p.description('%m/%d/%Y')];
  for (let k = 0; k < 4; k++) {
    checks.same(plainly(p.parseDate('02.01.2021', first)), '2021 1 2', 'the first of two in turn');
    checks.same(plainly(p.parseDate('01/02/2021', second)), '2021 1 2', 'the second of two in turn');
    checks.throws(() => p.description('[yaer]'), 'DescriptionError', {}, 'an invalid one between');
    checks.throws(() => p.parseDate('01/02/2021', first), 'ParseError', { index: 2, expected: "'.'" }, 'the other text');
  }
}

/** Moments at any offset are written as Date writes them at that of UTC, and parse back. */
function testWrittenOffsets(p, checks) {
  const next = random(822);
  for (let k = 0; k < 2000; k++) {
    const local = randomDate(next, 1901, 9000);
    const minutes = next(2879) - 1439;
    const size = Math.abs(minutes);
    const offset = `${minutes < 0 ? '-' : '+'}${padded(Math.floor(size / 60), 2)}${padded(size % 60, 2)}`;
    const { year, month, day, hour, minute, second, millisecond } = p.parsePlain(local.toISOString());
    const moment = { year, month, day, hour, minute, second, millisecond, microsecond: next(1000), nanosecond: next(1000), offsetSeconds: 60 * minutes };
    checks.same(p.format(moment, 'rfc2822'), local.toUTCString().replace('GMT', offset), 'as a mail date');
    for (const form of ['rfc3339', 'iso8601']) checks.same(plainly(p.parse(p.format(moment, form), form)), plainly(moment), form);
  }
}

function testWritten(p, checks) {
  const moment = p.parse('1985-04-12T23:20:50.52-08:30');
  checks.same(p.format(moment), '1985-04-12T23:20:50.52-08:30', 'RFC 3339');
  checks.same(p.format(moment, 'rfc3339'), '1985-04-12T23:20:50.52-08:30', 'RFC 3339 by name');
  checks.same(p.format(moment, 'iso8601'), '1985-04-12T23:20:50.520000000-08:30', 'ISO 8601');
  checks.same(p.format(moment, 'rfc2822'), 'Fri, 12 Apr 1985 23:20:50 -0830', 'RFC 2822');
  checks.same(p.format({ year: 2021, month: 1, day: 2, offsetSeconds: 0 }), '2021-01-02T00:00:00Z', 'few members');
  checks.same(p.format(new Date(0)), '1970-01-01T00:00:00Z', 'a Date');
  checks.same(JSON.parse(JSON.stringify(moment)).offsetSeconds, -30600, 'as JSON');
}

export function test(p, checks) {
  testTables(p, checks);
  testParts(p, checks);
  testNoPart(p, checks);
  testPartsOfIso(p, checks);
  testNames(p, checks);
  testInstants(p, checks);
  testOffsets(p, checks);
  testBesideDate(p, checks);
  testBesideTemporal(p, checks);
  testStrftime(p, checks);
  testDescriptions(p, checks);
  testWritten(p, checks);
  testWrittenOffsets(p, checks);
}

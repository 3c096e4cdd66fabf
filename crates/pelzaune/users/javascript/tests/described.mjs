// Moments as texts by descriptions: examples of standards, shown arithmetic, and random moments beside Date and Intl.

import { answered, padded, pick, random } from './checks.mjs';

const LOG = '%d/%b/%Y:%H:%M:%S %z';

// The texts of a moment by descriptions.
const TEXTS = {
  // RFC 9110, section 5.6.7: the three forms of a date, the last of which is asctime's.
  '1994-11-06T08:49:37Z': {
    '%a, %d %b %Y %H:%M:%S GMT': 'Sun, 06 Nov 1994 08:49:37 GMT',
    '%A, %d-%b-%y %H:%M:%S GMT': 'Sunday, 06-Nov-94 08:49:37 GMT',
    '%a %b %e %H:%M:%S %Y': 'Sun Nov  6 08:49:37 1994',
    '%c': 'Sun Nov  6 08:49:37 1994',
  },
  // RFC 2822, appendix A.1.1.
  '1997-11-21T09:55:06-06:00': { '%a, %d %b %Y %H:%M:%S %z': 'Fri, 21 Nov 1997 09:55:06 -0600' },
  // RFC 3164, section 5.4, whose times have no year.
  '2021-02-05T17:32:18Z': {
    '%b %e %T': 'Feb  5 17:32:18',
    '[month repr:short] [day padding:space] [hour]:[minute]:[second]': 'Feb  5 17:32:18',
  },
  // The common log format of Apache.
  '2000-10-10T13:55:36-07:00': { [`[${LOG}]`]: '[10/Oct/2000:13:55:36 -0700]' },
  // RFC 3339, section 5.8, and ISO 8601: 12 April 1985 is the Friday of week 15, and the day 31 + 28 + 31 + 12.
  '1985-04-12T23:20:50.52Z': {
    '%FT%T.%fZ': '1985-04-12T23:20:50.52Z',
    '%Y%m%dT%H%M%SZ': '19850412T232050Z',
    '%G-W%V-%u': '1985-W15-5',
    '[year base:iso_week]W[week_number][weekday repr:monday]': '1985W155',
    '[year]-[ordinal]': '1985-102',
    '%X%.f %3f %6f %9f %N': '23:20:50.52 520 520000 520000000 520000000',
    '[subsecond] [subsecond digits:1] [subsecond digits:4]': '52 5 5200',
  },
  '1937-01-01T12:00:27.87+00:20': { '%Y-%m-%dT%H:%M:%S%.f%:z': '1937-01-01T12:00:27.87+00:20' },
  // In UTC it is 22:35:06 on 2 February. The 51 years from 1970 have 13 leap days, so that day is day 365 * 51 + 13 + 32
  // = 18660, and the second is 86400 * 18660 + 81306. Day 0 is a Thursday, and 18661 is 7 * 2665 + 6. The first Sunday
  // is 3 January and the first Monday the day after, and 4 weeks and 3 days or 2 days later it is 3 February.
  '2021-02-03T04:05:06+05:30': {
    [LOG]: '03/Feb/2021:04:05:06 +0530',
    '[weekday], [day padding:none] [month repr:long] [year]': 'Wednesday, 3 February 2021',
    '%s': '1612305306',
    '[unix_timestamp precision:microsecond sign:mandatory]': '+1612305306000000',
    '%C|%y|%j|%U|%W|%w': '20|21|034|05|05|3',
    '%I:%M %p|%l|%k|%-d|%_d|%e|%P': '04:05 AM| 4| 4|3| 3| 3|am',
    '%D %r %R %%%n%t': '02/03/21 04:05:06 AM 04:05 %\n\t',
    '[offset_hour]:[offset_minute]:[offset_second]': '05:30:00',
    '[second].[subsecond]': '06.0',
    '%S%.f': '06.0',
    '[year][optional [-[month]]] [first [[day]] [[hour]]][end]': '2021-02 03',
    '\\[[year repr:last_two]\\]\\\\': '[21]\\',
    '\ufeffUhr é\u{1f550} [hour]': '\ufeffUhr é\u{1f550} 04',
    '': '',
    ' ': ' ',
  },
  // Counts are rounded down: -500 microseconds are in the millisecond -1.
  '1969-12-31T23:59:59.9995Z': {
    '%s': '-1',
    '[unix_timestamp precision:millisecond] [unix_timestamp precision:microsecond] [unix_timestamp precision:nanosecond]': '-1 -500 -500000',
  },
  '2020-02-29T00:30:00-00:30': { '%I %p %z': '12 AM -0030', '%j %H%:z': '060 00-00:30' },
  // The week of 1 January 2021, a Friday, is the last of 2020.
  '2020-12-31T12:00:00Z': { '%j %l %p': '366 12 PM', '%G %g %V': '2020 20 53' },
  '2021-01-01T00:00:00Z': { '%G-W%V-%u %Y': '2020-W53-5 2021' },
};

function testTexts(p, checks) {
  for (const [moment, texts] of Object.entries(TEXTS)) {
    for (const [form, text] of Object.entries(texts)) {
      checks.same(answered(() => p.format(p.parse(moment), p.description(form))), text, `${moment} by ${form}`);
    }
  }
  const moment = { year: -5, month: 1, day: 2, hour: 3, offsetSeconds: -93599 };
  checks.same(p.format(moment, p.description('%Y %C %y %z')), '-0005 -00 05 -2559', 'a year before 0');
  checks.same(p.format({ ...moment, year: 12021 }, p.description('[year] [year repr:century] [offset_second]')), '+12021 +120 59', 'five digits');
  checks.same(p.format(new Date(-1), p.description('%F %T.%3f')), '1969-12-31 23:59:59.999', 'a Date');
  const { Temporal } = globalThis;
  if (Temporal === undefined) return;
  checks.same(p.format(new Temporal.Instant(1612305306000000001n), p.description('%T.%f %z')), '22:35:06.000000001 +0000', 'an Instant');
  checks.same(p.format(new Temporal.ZonedDateTime(1612305306000000000n, '+05:30'), p.description(LOG)), '03/Feb/2021:04:05:06 +0530', 'a ZonedDateTime');
}

function testErrors(p, checks) {
  const moment = { year: 2021, month: 2, day: 3, offsetSeconds: 0 };
  const why = (changed, form, component, message) => (
    checks.throws(() => p.format({ ...moment, ...changed }, p.description(form)), 'FormatError', { component, message }, `${JSON.stringify(changed)} by ${form}`));
  for (const form of ['[year range:standard]', 'x[year repr:century range:standard]', '[year base:iso_week range:standard]']) {
    for (const year of [10000, -10000]) why({ year }, form, 'year', "the 'year' component has no text in that format");
  }
  for (const form of ['[year][ignore count:2]', '[optional [[ignore count:1]]]', '[first [[ignore count:1]] [[year]]]']) {
    why({}, form, 'ignore', "the 'ignore' component has no text in that format");
  }
  checks.same(p.format(moment, p.description('[first [[day]] [[ignore count:1]]]')), '03', 'what is not written');
  why({ month: 13 }, '%Y', 'month', 'month is out of range');
  why({ day: 29 }, '', 'day', 'day is out of range for the other components');
  why({ year: 2 ** 40 }, LOG, 'year', 'year is out of range');
  why({ offsetSeconds: 93600 }, LOG, 'seconds', 'seconds is out of range');
}

/** The longest text has 1024 bytes. Its description, and the one after it, stay as they are. */
function testLongest(p, checks) {
  const moment = p.parse('2021-02-03T04:05:06+05:30');
  // 51 components of 20 bytes each, and a literal of four or five.
  const [longest, longer] = ['\u{1f550}', '\u{1f550}.'].map((end) => p.description('[unix_timestamp precision:nanosecond sign:mandatory]'.repeat(51) + end));
  const log = p.description(LOG);
  for (let k = 0; k < 3; k++) {
    checks.same(p.format(moment, longest), `${'+1612305306000000000'.repeat(51)}\u{1f550}`, 'the longest text');
    checks.throws(() => p.format(moment, longer), 'FormatError', { message: 'the text has more than 1024 bytes', component: null }, 'a longer text');
    checks.same(p.format(moment, k === 1 ? 'rfc2822' : log), ['03/Feb/2021:04:05:06 +0530', 'Wed, 03 Feb 2021 04:05:06 +0530'][k % 2], 'the next text');
    checks.same(p.parse('03/Feb/2021:04:05:06 +0530', log).epochSeconds, 1612305306, 'the next description');
  }
}

const two = (number) => padded(number, 2);
const nameOf = (options) => {
  const names = new Intl.DateTimeFormat('en', { ...options, timeZone: 'UTC' });
  return (date) => names.format(date);
};
const hour12 = (date) => date.getUTCHours() % 12 || 12;
const dayOfYear = (date) => 1 + Math.floor((date - Date.UTC(date.getUTCFullYear())) / 86400000);
// The weeks of a year that have begun, from the first day with that number of a weekday.
const weeks = (date, first) => Math.floor((dayOfYear(date) + 6 - ((date.getUTCDay() + 7 - first) % 7)) / 7);

// A component in brackets and in strftime, and its text of a Date.
const COMPONENTS = [
  ['[year]', '%Y', (date) => date.getUTCFullYear()],
  ['[year repr:century]', '%C', (date) => Math.floor(date.getUTCFullYear() / 100)],
  ['[year repr:last_two]', '%y', (date) => two(date.getUTCFullYear() % 100)],
  ['[month]', '%m', (date) => two(date.getUTCMonth() + 1)],
  ['[month padding:none]', '%-m', (date) => date.getUTCMonth() + 1],
  ['[month repr:short]', '%b', nameOf({ month: 'short' })],
  ['[month repr:long]', '%B', nameOf({ month: 'long' })],
  ['[day]', '%d', (date) => two(date.getUTCDate())],
  ['[day padding:space]', '%e', (date) => String(date.getUTCDate()).padStart(2)],
  ['[ordinal]', '%j', (date) => padded(dayOfYear(date), 3)],
  ['[weekday]', '%A', nameOf({ weekday: 'long' })],
  ['[weekday repr:short]', '%a', nameOf({ weekday: 'short' })],
  ['[weekday repr:sunday one_indexed:false]', '%w', (date) => date.getUTCDay()],
  ['[weekday repr:monday]', '%u', (date) => date.getUTCDay() || 7],
  ['[week_number repr:sunday]', '%U', (date) => two(weeks(date, 0))],
  ['[week_number repr:monday]', '%W', (date) => two(weeks(date, 1))],
  ['[hour]', '%H', (date) => two(date.getUTCHours())],
  ['[hour repr:12]', '%I', (date) => two(hour12(date))],
  ['[hour repr:12 padding:space]', '%l', (date) => String(hour12(date)).padStart(2)],
  ['[period]', '%p', (date) => (date.getUTCHours() < 12 ? 'AM' : 'PM')],
  ['[minute padding:none]', '%-M', (date) => date.getUTCMinutes()],
  ['[second]', '%S', (date) => two(date.getUTCSeconds())],
  ['[subsecond digits:3]', '%3f', (date) => padded(date.getUTCMilliseconds(), 3)],
  ['[unix_timestamp]', '%s', (date) => Math.floor(date.getTime() / 1000)],
  ['[offset_hour sign:mandatory][offset_minute]', '%z', () => '+0000'],
  [' of é', ' of é', () => ' of é'],
];

/** The text of components in turn is that of each. */
function testBesideDate(p, checks) {
  const next = random(9110);
  for (let k = 0; k < 3000; k++) {
    const date = new Date(Date.UTC(1000 + next(9000), next(12), 1 + next(31), next(24), next(60), next(60), next(1000)));
    const parts = Array.from({ length: 1 + next(10) }, () => pick(next, COMPONENTS));
    const text = parts.map(([, , textOf]) => textOf(date)).join('');
    for (const syntax of [0, 1]) {
      const form = parts.map((part) => part[syntax]).join('');
      checks.same(answered(() => p.format(date, p.description(form))), text, `${date.toISOString()} by ${form}`);
    }
  }
  const [iso, mail] = [p.description('%FT%T.%3fZ'), p.description('%a, %d %b %Y %T GMT')];
  for (let k = 0; k < 1000; k++) {
    const date = new Date(1000 * (next(2147483646) + next(2147483646)) + next(1000));
    checks.same([p.format(date, iso), p.format(date, mail)], [date.toISOString(), date.toUTCString()], 'as Date writes it');
  }
}

// Descriptions that have all of a moment, and the least unit of their offset.
const WHOLE = [
  ['%Y-%m-%dT%H:%M:%S.%N%:z', 60],
  ['%A, %-d %B %Y, %I:%M:%S.%f %p %z', 60],
  ['[year base:iso_week]-W[week_number]-[weekday repr:monday] [hour]:[minute]:[second].[subsecond] [offset_hour sign:mandatory]:[offset_minute]:[offset_second]', 1],
  ['[ordinal padding:none]/[year sign:mandatory] [hour padding:none].[minute padding:none].[second padding:none],[subsecond digits:9] [offset_hour padding:none] [offset_minute padding:none] [offset_second padding:none]', 1],
];

/** Moments of any year at any offset parse back. */
function testParsedBack(p, checks) {
  const next = random(8601);
  const forms = WHOLE.map(([form, unit]) => [p.description(form), unit]);
  const count = p.description('[unix_timestamp precision:nanosecond]');
  for (let k = 0; k < 2000; k++) {
    const [form, unit] = pick(next, forms);
    const whole = Math.floor(93600 / unit);
    const moment = {
      year: pick(next, [next(10000), next(1000000), 0 - next(1000000)]), month: 1 + next(12), day: 1 + next(28),
      hour: next(24), minute: next(60), second: next(60), millisecond: next(1000), microsecond: next(1000), nanosecond: next(1000),
      offsetSeconds: unit * (next(2 * whole - 1) - whole + 1),
    };
    const text = p.format(moment, form);
    checks.same({ ...answered(() => p.parse(text, form)) }, moment, text);
    checks.same(String(p.parse(text, form).epochNanoseconds), p.format(moment, count), 'its nanoseconds');
  }
}

/** Any numbers are a description. Its text has any bytes, or there is an error. */
function testAnyNumbers(p, checks) {
  const next = random(1032);
  const { constructor: Description } = p.description('');
  const moment = p.parse('2021-02-03T04:05:06.789+05:30');
  for (let k = 0; k < 3000; k++) {
    const prepared = new Uint8Array(1032);
    const view = new DataView(prepared.buffer);
    view.setBigUint64(0, pick(next, [BigInt(next(66)), 2n ** 64n - 1n]), true);
    for (let at = 8; at < 1032; at += 16) {
      view.setBigUint64(at, pick(next, [BigInt(next(5)), BigInt(next(70)), 2n ** 63n]), true);
      view.setUint16(at + 8, next(3), true);
      for (const [offset, below] of [[10, next(50) === 0 ? 256 : 44], [11, 256], [12, 3]]) view.setUint8(at + offset, next(below));
    }
    const form = new Description('', prepared);
    const text = answered(() => p.format(moment, form));
    checks.isTrue(typeof text === 'string' ? text.length <= 1024 : text[0] === 'FormatError', `any numbers: ${text}`);
    checks.same(answered(() => p.format(moment, form)), text, 'the text again');
  }
}

export function test(p, checks) {
  testTexts(p, checks);
  testErrors(p, checks);
  testLongest(p, checks);
  testBesideDate(p, checks);
  testParsedBack(p, checks);
  testAnyNumbers(p, checks);
}

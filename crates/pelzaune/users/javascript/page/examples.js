// Texts that each format accepts and rejects, each with a remark. The tests parse all of them.

const LOG = '%d/%b/%Y:%H:%M:%S %z';

/** The titles of the formats. A format without one is shown by its name. */
export const TITLES = { rfc3339: 'RFC 3339', rfc2822: 'RFC 2822', iso8601: 'ISO 8601', description: 'Description' };

/** What a text is parsed as: the name of a call of the package, and its title. */
export const TARGETS = [
  ['parse', 'Date, time and offset'],
  ['parsePlain', 'Date and time'],
  ['parseDate', 'Date'],
  ['parseTime', 'Time'],
  ['parseParts', 'Whatever parts it has'],
];

/** The format, its text, the target, and a remark. */
export const EXAMPLES = {
  rfc3339: {
    accepted: [
      ['1985-04-12T23:20:50.52Z', 'parse', 'from the RFC'],
      ['1996-12-19T16:39:57-08:00', 'parse', 'an offset'],
      ['1996-12-19t16:39:57z', 'parse', 'small letters'],
      ['1996-12-19 16:39:57Z', 'parse', 'a blank for the T'],
      ['2021-01-02T03:04:05.123456789+05:30', 'parse', 'nine digits of a fraction'],
      ['1990-12-31T23:59:60Z', 'parse', 'a leap second'],
      ['1996-12-19T16:39:57-00:00', 'parse', 'an unknown offset'],
    ],
    rejected: [
      ['1996-12-19T16:39:57', 'parse', 'no offset'],
      ['1996-13-19T16:39:57Z', 'parse', 'no such month'],
      ['2021-02-30T00:00:00Z', 'parse', 'no such day'],
      ['1996-12-19T24:00:00Z', 'parse', 'no such hour'],
      ['1996-12-19T16:39Z', 'parse', 'no seconds'],
      ['1996-12-19T16:39:57-0800', 'parse', 'an offset without a colon'],
      ['1996/12/19T16:39:57Z', 'parse', 'other separators'],
      ['1996-12-19_16:39:57Z', 'parse', 'an underscore for the T'],
      ['1996-12-19T16:39:57Z ', 'parse', 'a blank after it'],
    ],
  },
  rfc2822: {
    accepted: [
      ['Fri, 21 Nov 1997 09:55:06 -0600', 'parse', 'from the RFC'],
      ['21 Nov 1997 09:55 -0600', 'parse', 'no weekday, no seconds'],
      ['Fri, 21 Nov 97 09:55:06 EST', 'parse', 'two digits of a year, a zone name'],
      ['Thu, 13 Feb 1969 23:32 -0330 (Newfoundland Time)', 'parse', 'a comment'],
      ['Sat, 2 Jan 2021 03:04:05 GMT', 'parse', 'one digit of a day'],
    ],
    rejected: [
      ['Sat 02 Jan 2021 03:04:05 +0000', 'parse', 'no comma'],
      ['Sat, 02 Januar 2021 03:04:05 +0000', 'parse', 'no such month'],
      ['Sat, 32 Jan 2021 03:04:05 +0000', 'parse', 'no such day'],
      ['Sat, 02 Jan 2021 03:04:05', 'parse', 'no offset'],
      ['Sat, 02 Jan 2021 03:04:05 +00:00', 'parse', 'a colon in the offset'],
    ],
  },
  iso8601: {
    accepted: [
      ['2021-01-02T03:04:05Z', 'parse', 'with separators'],
      ['20210102T030405Z', 'parse', 'without separators'],
      ['2021-01-02T03:04:05,25-00:30', 'parse', 'a comma before the fraction'],
      ['2021-01-02T0304Z', 'parse', 'separators in the date alone'],
      ['2020-W53-6T03:04Z', 'parse', 'a week and its day'],
      ['2020-366', 'parseDate', 'a day of the year'],
      ['+012021-01-02T03Z', 'parse', 'six digits of a year, only hours'],
      ['T03:04,5', 'parseTime', 'half a minute'],
    ],
    rejected: [
      ['2021-01-02', 'parse', 'no time'],
      ['2021-W54-1T00:00Z', 'parse', 'no such week'],
      ['2021-366', 'parseDate', 'no such day'],
      ['12021-01-02T03:04:05Z', 'parse', 'five digits of a year'],
    ],
  },
};

/** The description, the text, the target, whether it is accepted, and a remark. */
export const DESCRIBED = [
  [LOG, '10/Oct/2000:13:55:36 -0700', 'parse', true, 'an access log'],
  [LOG, '10/oct/2000:13:55:36 -0700', 'parse', false, 'a small letter'],
  ['%d.%m.%Y', '02.01.2021', 'parseDate', true, 'a date'],
  ['%d.%m.%Y', '2.1.2021', 'parseDate', false, 'one digit'],
  ['[year]-[month]-[day] [hour]:[minute]:[second],[subsecond]', '2021-01-02 03:04:05,123', 'parsePlain', true, 'a log of Python'],
  ['[day padding:none].[month padding:none].[year]', '2.1.2021', 'parseDate', true, 'days without zeros'],
  ['[hour repr:12 padding:none]:[minute] [period]', '1:05 PM', 'parseTime', true, 'a clock of twelve hours'],
  ['[year]-[month]-[day][optional [T[hour]:[minute]]]', '2021-01-02', 'parseDate', true, 'an optional part'],
  ['[unix_timestamp]', '1609556645', 'parse', true, 'seconds since 1970'],
  ['[year]-[month]-[day]', '2021-02-29', 'parseDate', false, 'no such day'],
  ['[year]-[moth]', '2021-01', 'parseDate', false, 'an invalid description'],
];

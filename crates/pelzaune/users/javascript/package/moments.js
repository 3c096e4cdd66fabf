// The members of a moment that a caller wants written.

import { kindOf } from './formats.js';

const LEAST_INT32 = -(2 ** 31);
const MOST_INT32 = 2 ** 31 - 1;
const MOST_UINT32 = 2 ** 32 - 1;
const MOST_BYTE = 255;

/** A member, which has to be an integer. One that may be missing has a value for that. */
function integerOf(moment, name, missing) {
  const value = moment[name];
  if (value === undefined && missing !== undefined) return missing;
  if (!Number.isInteger(value)) throw new TypeError(`the moment's ${name} must be an integer, not ${kindOf(value)}`);
  return value;
}

/** A member as the library takes it. A value that doesn't fit becomes one that the library rejects by its name. */
const asByte = (value) => (value < 0 || value > MOST_BYTE ? MOST_BYTE : value);
const asInt32 = (value) => Math.min(Math.max(value, LEAST_INT32), MOST_INT32);

/** The nanoseconds of a second. */
function nanosecondsOf(moment) {
  const parts = ['millisecond', 'microsecond', 'nanosecond'].map((name) => integerOf(moment, name, 0));
  if (parts.some((part) => part < 0 || part > 999)) return MOST_UINT32;
  return 1000000 * parts[0] + 1000 * parts[1] + parts[2];
}

/** A Date as a moment in UTC. */
function momentOfDate(date) {
  if (Number.isNaN(date.getTime())) throw new RangeError('the Date is invalid');
  return {
    year: date.getUTCFullYear(), month: date.getUTCMonth() + 1, day: date.getUTCDate(),
    hour: date.getUTCHours(), minute: date.getUTCMinutes(), second: date.getUTCSeconds(),
    millisecond: date.getUTCMilliseconds(), offsetSeconds: 0,
  };
}

/** A value of Temporal as an object with the members of a moment. */
function momentOfZoned(zoned) {
  const { year, month, day, hour, minute, second, millisecond, microsecond, nanosecond, offsetNanoseconds } =
    zoned.withCalendar('iso8601');
  const offsetSeconds = offsetNanoseconds / 1000000000;
  return { year, month, day, hour, minute, second, millisecond, microsecond, nanosecond, offsetSeconds };
}

/** What was passed, as an object with the members of a moment. */
function plainly(moment) {
  if (moment instanceof Date) return momentOfDate(moment);
  switch (moment[Symbol.toStringTag]) {
    case 'Temporal.Instant': return momentOfZoned(moment.toZonedDateTimeISO('UTC'));
    case 'Temporal.ZonedDateTime': return momentOfZoned(moment);
    default: return moment;
  }
}

/** The members of a moment, of a Date, or of an Instant or a ZonedDateTime of Temporal, as the library takes them. */
export function membersOf(moment) {
  if (typeof moment !== 'object' || moment === null) throw new TypeError(`the moment must be an object, not ${kindOf(moment)}`);
  const given = plainly(moment);
  const small = [
    integerOf(given, 'month'), integerOf(given, 'day'),
    integerOf(given, 'hour', 0), integerOf(given, 'minute', 0), integerOf(given, 'second', 0),
  ];
  return {
    year: asInt32(integerOf(given, 'year')),
    nanoseconds: nanosecondsOf(given),
    offsetSeconds: asInt32(integerOf(given, 'offsetSeconds')),
    small: small.map(asByte),
  };
}

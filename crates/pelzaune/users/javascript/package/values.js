// What a text parses as. The members have the names and the ranges of Temporal's, so Temporal's `from` accepts each value.

const SECONDS_OF_A_DAY = 86400;
const DAYS_OF_400_YEARS = 146097;
// The days from 0000-03-01 to 1970-01-01.
const DAYS_BEFORE_1970 = 719468;

/** The days from 1970-01-01 to a date, counted in cycles of 400 years that start in March. */
function daysOf({ year, month, day }) {
  const marchYear = month <= 2 ? year - 1 : year;
  const cycle = Math.floor(marchYear / 400);
  const yearOfCycle = marchYear - 400 * cycle;
  const dayOfYear = Math.floor((153 * ((month + 9) % 12) + 2) / 5) + day - 1;
  const leapDays = Math.floor(yearOfCycle / 4) - Math.floor(yearOfCycle / 100);
  return DAYS_OF_400_YEARS * cycle + 365 * yearOfCycle + leapDays + dayOfYear - DAYS_BEFORE_1970;
}

/** Temporal, also where a polyfill adds it later. */
function temporal() {
  const found = globalThis.Temporal;
  if (found === undefined) throw new TypeError('this engine has no Temporal');
  return found;
}

/** Temporal's time zone of an offset, such as +05:30. */
function zoneOf(offsetSeconds) {
  const size = Math.abs(offsetSeconds);
  if (size % 60 !== 0) throw new RangeError('Temporal has no time zone for an offset with seconds');
  const two = (number) => String(Math.floor(number)).padStart(2, '0');
  return `${offsetSeconds < 0 ? '-' : '+'}${two(size / 3600)}:${two((size / 60) % 60)}`;
}

/** A date. */
export class PlainDate {
  constructor(year, month, day) {
    this.year = year;
    this.month = month;
    this.day = day;
  }

  toPlainDate() {
    return temporal().PlainDate.from(this);
  }
}

/** A time of day. */
export class PlainTime {
  /** `nanoseconds` are those of the second, 0 to 999999999. */
  constructor(hour, minute, second, nanoseconds) {
    this.hour = hour;
    this.minute = minute;
    this.second = second;
    this.millisecond = (nanoseconds / 1000000) | 0;
    this.microsecond = ((nanoseconds / 1000) | 0) % 1000;
    this.nanosecond = nanoseconds % 1000;
  }

  toPlainTime() {
    return temporal().PlainTime.from(this);
  }
}

/** A date and a time of day. */
export class PlainDateTime {
  constructor(year, month, day, hour, minute, second, nanoseconds) {
    this.year = year;
    this.month = month;
    this.day = day;
    this.hour = hour;
    this.minute = minute;
    this.second = second;
    this.millisecond = (nanoseconds / 1000000) | 0;
    this.microsecond = ((nanoseconds / 1000) | 0) % 1000;
    this.nanosecond = nanoseconds % 1000;
  }

  toPlainDateTime() {
    return temporal().PlainDateTime.from(this);
  }
}

/** A date and a time of day with an offset from UTC. */
export class Moment {
  constructor(year, month, day, hour, minute, second, nanoseconds, offsetSeconds) {
    this.year = year;
    this.month = month;
    this.day = day;
    this.hour = hour;
    this.minute = minute;
    this.second = second;
    this.millisecond = (nanoseconds / 1000000) | 0;
    this.microsecond = ((nanoseconds / 1000) | 0) % 1000;
    this.nanosecond = nanoseconds % 1000;
    this.offsetSeconds = offsetSeconds;
  }

  /** The seconds since 1970-01-01T00:00:00Z, rounded down. */
  get epochSeconds() {
    const inDay = 3600 * this.hour + 60 * this.minute + this.second;
    return SECONDS_OF_A_DAY * daysOf(this) + inDay - this.offsetSeconds;
  }

  /** The milliseconds since 1970-01-01T00:00:00Z, rounded down. They are exact up to the year 287396. */
  get epochMilliseconds() {
    return 1000 * this.epochSeconds + this.millisecond;
  }

  /** The nanoseconds since 1970-01-01T00:00:00Z. */
  get epochNanoseconds() {
    const inSecond = 1000000 * this.millisecond + 1000 * this.microsecond + this.nanosecond;
    return BigInt(this.epochSeconds) * 1000000000n + BigInt(inSecond);
  }

  /** A Date, with its milliseconds rounded down. */
  toDate() {
    const date = new Date(this.epochMilliseconds);
    if (Number.isNaN(date.getTime())) throw new RangeError('the moment is out of the range of Date');
    return date;
  }

  toInstant() {
    return new (temporal().Instant)(this.epochNanoseconds);
  }

  /** Its time zone is the offset, unless you name another. */
  toZonedDateTime(timeZone = zoneOf(this.offsetSeconds)) {
    return new (temporal().ZonedDateTime)(this.epochNanoseconds, timeZone);
  }
}

// The types of the package. The members of values have the names and ranges of Temporal's.

/** The name of a format. The calls accept any case. `rfc3339`, the default, accepts `T`, `t` or a space between date and time. */
export type FormatName = 'rfc3339' | 'rfc2822' | 'iso8601' | 'RFC3339' | 'RFC2822' | 'ISO8601';

/** A prepared description, which `description` returns. */
export interface Description {
  /** The text that it was prepared from. */
  readonly text: string;
  /** Only `description` makes one. */
  readonly [prepared]: true;
}
declare const prepared: unique symbol;
export {};

/** What a text is parsed by, and a moment written by. */
export type Format = FormatName | Description;

/** A text: a string, or bytes that need not be UTF-8. */
export type Text = string | Uint8Array;

export interface PlainDate {
  /** -999999 to 999999. */
  year: number;
  month: number;
  day: number;
  /** A Temporal.PlainDate, where the engine has Temporal. */
  toPlainDate(): TemporalOf<'PlainDate'>;
}

export interface PlainTime {
  hour: number;
  minute: number;
  second: number;
  /** 0 to 999, as in Temporal. So are `microsecond` and `nanosecond`. */
  millisecond: number;
  microsecond: number;
  nanosecond: number;
  /** A Temporal.PlainTime, where the engine has Temporal. */
  toPlainTime(): TemporalOf<'PlainTime'>;
}

export interface PlainDateTime extends Omit<PlainDate, 'toPlainDate'>, Omit<PlainTime, 'toPlainTime'> {
  /** A Temporal.PlainDateTime, where the engine has Temporal. */
  toPlainDateTime(): TemporalOf<'PlainDateTime'>;
}

/** A date and a time with an offset from UTC. */
export interface Moment extends Omit<PlainDateTime, 'toPlainDateTime'> {
  /** Seconds ahead of UTC. */
  offsetSeconds: number;
  /** Since 1970-01-01T00:00:00Z, rounded down. */
  readonly epochSeconds: number;
  /** Since 1970-01-01T00:00:00Z, rounded down. Exact up to the year 287396. */
  readonly epochMilliseconds: number;
  /** Since 1970-01-01T00:00:00Z. */
  readonly epochNanoseconds: bigint;
  /** The Date, or a RangeError where Date has no such moment. */
  toDate(): Date;
  /** A Temporal.Instant, where the engine has Temporal. */
  toInstant(): TemporalOf<'Instant'>;
  /** A Temporal.ZonedDateTime, where the engine has Temporal, at the moment's offset or in a time zone. */
  toZonedDateTime(timeZone?: string): TemporalOf<'ZonedDateTime'>;
}

/** The class of that name of Temporal, where TypeScript knows Temporal. */
type TemporalOf<Name extends string> = typeof globalThis extends { Temporal: infer Temporal }
  ? Name extends keyof Temporal
    ? Temporal[Name] extends abstract new (...given: never[]) => infer Value
      ? Value
      : any
    : any
  : any;

/** The parts of a text, at least one. A part that the text doesn't have is null. */
export interface Parts {
  date: PlainDate | null;
  time: PlainTime | null;
  offsetSeconds: number | null;
}

/** Where a text fails. */
export interface Place {
  message: string;
  component: string | null;
  /** In UTF-16 units of a string, or in bytes. */
  index: number | null;
  /** A component's name, a byte such as 'T', or `the end`. */
  expected: string | null;
}

/** A text that a format rejects. */
export class ParseError extends RangeError {
  /** The name of the component, such as `month`, if the message has one. */
  readonly component: string | null;
  /** Where the text fails, in UTF-16 units of a string, or in bytes. It is null for a date that doesn't exist. */
  readonly index: number | null;
  /** What was expected there: a component's name, a byte such as 'T', or `the end`. */
  readonly expected: string | null;
}

/** A description that isn't valid. */
export class DescriptionError extends ParseError {}

/** A moment that a format can't write. */
export class FormatError extends RangeError {
  /** The name of the component that the format can't write or that is out of range, if the message has one. */
  readonly component: string | null;
}

/** What `format` writes: a Moment, an object with such members, or what Temporal calls a ZonedDateTime or an Instant. */
export type Writable =
  | Date
  | (Pick<Moment, 'year' | 'month' | 'day' | 'offsetSeconds'> &
      Partial<Pick<Moment, 'hour' | 'minute' | 'second' | 'millisecond' | 'microsecond' | 'nanosecond'>>)
  | { readonly epochNanoseconds: bigint; readonly [Symbol.toStringTag]: 'Temporal.Instant' | 'Temporal.ZonedDateTime' };

/** The calls of the package. Each throws a ParseError for a text that the format rejects. */
export interface Parser {
  /** Parses a date and a time with an offset. */
  parse(text: Text, format?: Format): Moment;
  /** Parses a date and a time, and drops an offset. */
  parsePlain(text: Text, format?: Format): PlainDateTime;
  /** Parses the date of a text. */
  parseDate(text: Text, format?: Format): PlainDate;
  /** Parses the time of a text. */
  parseTime(text: Text, format?: Format): PlainTime;
  /** Parses the parts that a text has. Throws a ParseError also if it has no complete date, time or offset. */
  parseParts(text: Text, format?: Format): Parts;
  /**
   * Parses texts, or the lines of bytes, into nanoseconds since 1970. A line ends with LF or CR LF. `rejected` has the
   * indexes of texts that the format rejects, or whose nanoseconds don't fit 64 bits. Their entries are NO_COUNT.
   */
  parseMany(texts: Iterable<Text> | Uint8Array | ArrayBufferLike, format?: Format): { epochNanoseconds: BigInt64Array; rejected: number[] };
  /** Parses texts, or the lines of bytes, into milliseconds since 1970, rounded down, or NaN for a rejected text. */
  parseMilliseconds(texts: Iterable<Text> | Uint8Array | ArrayBufferLike, format?: Format): { epochMilliseconds: Float64Array; rejected: number[] };
  /** Prepares a description: of strftime if it contains a `%`, else in brackets. Throws a DescriptionError. */
  description(text: string): Description;
  /** Locates the error of a text, or returns null where the format matches the whole text. */
  locate(text: Text, format?: Format): Place | null;
  /**
   * Writes a moment. A description is written with all its optional items and the first item of each choice, in at most
   * 1024 bytes of UTF-8. Throws a FormatError for a moment that the format can't write.
   */
  format(moment: Writable, format?: Format): string;
}

export const parse: Parser['parse'];
export const parsePlain: Parser['parsePlain'];
export const parseDate: Parser['parseDate'];
export const parseTime: Parser['parseTime'];
export const parseParts: Parser['parseParts'];
export const parseMany: Parser['parseMany'];
export const parseMilliseconds: Parser['parseMilliseconds'];
export const description: Parser['description'];
export const locate: Parser['locate'];
export const format: Parser['format'];

/** The entry of a text that `parseMany` rejects, the least number of 64 bits. */
export const NO_COUNT: bigint;

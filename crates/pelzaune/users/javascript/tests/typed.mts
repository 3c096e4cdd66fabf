// Each call with the types of its arguments and its result, for tsc.
import {
  description, format, locate, parse, parseDate, parseMany, parseMilliseconds, parseParts, parsePlain, parseTime,
  DescriptionError, FormatError, NO_COUNT, ParseError,
} from 'pelzaune';
import type { Description, Format, FormatName, Moment, Parser, Parts, Place, PlainDate, PlainDateTime, PlainTime } from 'pelzaune';
import { createParser } from 'pelzaune/parser';

const day: Description = description('[day].[month].[year]');
const name: FormatName = 'iso8601';
const forms: Format[] = [day, name, 'rfc2822', 'RFC3339'];
const moment: Moment = parse('1985-04-12T23:20:50.52Z');
const members: number[] = [moment.year, moment.nanosecond, moment.offsetSeconds, moment.epochMilliseconds];
const exact: bigint = moment.epochNanoseconds;
const date: Date = moment.toDate();
moment.toInstant();
moment.toZonedDateTime();
moment.toZonedDateTime('Europe/Berlin');
const plain: PlainDateTime = parsePlain(new Uint8Array(4), name);
const onDay: PlainDate = parseDate('02.01.2021', day);
const time: PlainTime = parseTime('23:20', description('%H:%M'));
const parts: Parts = parseParts('2020-366', 'iso8601');
const offset: number | null = parts.offsetSeconds;
const column: { epochNanoseconds: BigInt64Array; rejected: number[] } = parseMany(['1985-04-12T23:20:50.52Z', new Uint8Array(1)]);
const lines: Float64Array = parseMilliseconds(new Uint8Array(10), 'rfc3339').epochMilliseconds;
parseMany(new ArrayBuffer(3), day);
parseMany(new Set(['x']));
const place: Place | null = locate('2021-13', name);
const written: string[] = [format(moment), format(new Date(), 'rfc2822'), format(moment, day), format({ year: 2021, month: 1, day: 2, offsetSeconds: 0 })];
const least: bigint = NO_COUNT;
const other: Parser = createParser(new WebAssembly.Module(new Uint8Array(8)));

try {
  other.parse('');
} catch (error) {
  if (error instanceof DescriptionError) console.log(error.index, forms, members, exact, date);
  else if (error instanceof ParseError) console.log(error.component, error.index, error.expected, plain, onDay, time, offset, column);
  else if (error instanceof FormatError) console.log(error.component, lines, place, written, least);
}

// The parts of a text: which component matched which characters.
//
// The library locates the error of a text. So this damages one character after the other, and asks where the damaged
// text fails: it fails at the start of the part whose character is damaged, and the library says what it expected there.
// In ISO 8601 most parts are optional, so that the library expects the end of the text. There a pattern finds the parts.

// No format has this character anywhere but in a comment or where any character is ignored.
const DAMAGE = '\u0001';

/** The parts of a text of ISO 8601, by their names. Only a complete date is one: `2021-01` is a time and an offset. */
const ISO = new RegExp([
  '^(?:(?<year>[+-]\\d{6}|\\d{4})',
  '(?:-?W(?<week>\\d{2})-?(?<weekday>\\d)|-?(?<ordinal>\\d{3})(?!\\d)|-?(?<month>\\d{2})-?(?<day>\\d{2})))?',
  '(?:T?(?<hour>\\d{2})(?::?(?<minute>\\d{2})(?::?(?<second>\\d{2}))?)?(?:[.,](?<fraction>\\d+))?)?',
  '(?:(?<offset_hour>Z|[+-]\\d{2})(?::?(?<offset_minute>\\d{2}))?)?',
].join(''), 'd');

/** The parts of a text of ISO 8601 before `limit`. */
function isoPartsOf(text, limit) {
  return Object.entries(ISO.exec(text).indices.groups)
    .filter(([, place]) => place !== undefined && place[0] < limit)
    .map(([name, [start, end]]) => ({ start, end: Math.min(end, limit), component: name.replace('_', ' ') }));
}

/** The end of the character at an index, which may have two units. */
function nextIndex(text, index) {
  return index + (text.codePointAt(index) > 0xffff ? 2 : 1);
}

/**
 * Whether the digit at an index continues the last part, which is a number that could have ended before it. Then the
 * library expects what follows the number.
 */
function continues(text, index, last, found) {
  if (last === null || last.end !== index || !/^[0-9]{2}$/.test(text.slice(index - 1, index + 1))) return false;
  if (found.component === null) return found.expected !== `'${text[index]}'`;
  return last.component === 'subsecond' && found.component !== last.component && found.index === index;
}

/** The component of the character at an index, where its part starts, or null. */
function partAt(text, index, end, last, locate) {
  const found = locate(text.slice(0, index) + DAMAGE + text.slice(end));
  if (found === null) return null;
  if (continues(text, index, last, found)) return last;
  const character = text.slice(index, end);
  const isMark = found.index === index && !/[\p{L}\p{N}+-]/u.test(character);
  if (found.component === null || found.index > index || isMark) return null;
  // Where a mail date may begin with a weekday, the library expects the day.
  const isWeekday = found.component === 'day' && /\p{L}/u.test(character);
  return { start: found.index, component: isWeekday ? 'weekday' : found.component };
}

/** The parts of a text before `limit`: where each starts and ends, and its component. */
export function partsOf(format, text, limit, locate) {
  if (format === 'iso8601') return isoPartsOf(text, limit);
  const parts = [];
  for (let index = 0; index < limit; ) {
    const end = nextIndex(text, index);
    const last = parts.length === 0 ? null : parts[parts.length - 1];
    const part = partAt(text, index, end, last, locate);
    if (part !== null && last !== null && last.end === index && part.component === last.component && part.start <= last.start) last.end = end;
    else if (part !== null) parts.push({ start: index, end, component: part.component });
    index = end;
  }
  return parts;
}

const COLOURS = [
  [/^(day|ordinal|weekday)/, 'day'], [/^(year|week)/, 'year'], [/^month/, 'month'], [/^(hour|period)/, 'hour'], [/^minute/, 'minute'],
  [/^(second|unix)/, 'second'], [/^(subsecond|nanosecond|fraction)/, 'fraction'], [/^offset/, 'offset'],
];

/** The class of the colour of a component. */
export function colourOf(component) {
  return COLOURS.find(([pattern]) => pattern.test(component))?.[1] ?? 'other';
}

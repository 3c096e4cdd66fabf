// One text: its value in all forms, or its error, and its parts in colours.

import { ParseError } from '../package/errors.js';
import { by, element, fill, visible } from './dom.js';
import { colourOf, partsOf } from './parts.js';

// A longer text is shown without its parts, since each of its characters would be damaged in turn.
const MOST_COLOURED = 500;
// The library's message of a text with too few parts names a type of Rust.
const MISSING = /^missing /;

const two = (number) => String(number).padStart(2, '0');

/** A text that a call returns, or the message of its error. */
function attempt(call) {
  try {
    return call();
  } catch (error) {
    return error.message;
  }
}

/** The date of a value as text. */
function dateText({ year, month, day }) {
  const digits = String(Math.abs(year)).padStart(4, '0');
  return `${year < 0 ? '-' : ''}${digits}-${two(month)}-${two(day)}`;
}

/** The time of a value as text. */
function timeText({ hour, minute, second, millisecond, microsecond, nanosecond }) {
  const fraction = [millisecond, microsecond, nanosecond].map((it) => String(it).padStart(3, '0')).join('').replace(/0+$/, '');
  return `${two(hour)}:${two(minute)}:${two(second)}${fraction && `.${fraction}`}`;
}

function offsetText(seconds) {
  const size = Math.abs(seconds);
  const rest = size % 60 === 0 ? '' : `:${two(size % 60)}`;
  return `${seconds < 0 ? '-' : '+'}${two(Math.floor(size / 3600))}:${two(Math.floor(size / 60) % 60)}${rest}`;
}

/** A moment at the offset 0. */
function inUtc(moment) {
  const date = moment.toDate();
  return {
    year: date.getUTCFullYear(), month: date.getUTCMonth() + 1, day: date.getUTCDate(), hour: date.getUTCHours(),
    minute: date.getUTCMinutes(), second: date.getUTCSeconds(), millisecond: moment.millisecond, microsecond: moment.microsecond,
    nanosecond: moment.nanosecond, offsetSeconds: 0,
  };
}

function inOwnZone(moment) {
  const form = new Intl.DateTimeFormat(undefined, {
    weekday: 'long', year: 'numeric', month: 'long', day: 'numeric', hour: '2-digit', minute: '2-digit', second: '2-digit', timeZoneName: 'short',
  });
  return form.format(moment.toDate());
}

/** The rows of a moment: a title, and the text. `format` is what parsed it: a name or a description. */
function momentRows(p, moment, format) {
  const zone = new Intl.DateTimeFormat().resolvedOptions().timeZone;
  return [
    ['RFC 3339', attempt(() => p.format(moment, 'rfc3339'))],
    ['In UTC', attempt(() => p.format(inUtc(moment), 'rfc3339'))],
    ['RFC 2822', attempt(() => p.format(moment, 'rfc2822'))],
    ['ISO 8601', attempt(() => p.format(moment, 'iso8601'))],
    ...(typeof format === 'string' ? [] : [['By the description', attempt(() => p.format(moment, format))]]),
    [`In your time zone (${zone})`, attempt(() => inOwnZone(moment))],
    ['Offset', `${offsetText(moment.offsetSeconds)}, ${moment.offsetSeconds} seconds ahead of UTC`],
    ['Seconds since 1970', String(moment.epochSeconds)],
    ['Milliseconds since 1970', String(moment.epochMilliseconds)],
    ['Nanoseconds since 1970', String(moment.epochNanoseconds)],
  ];
}

/** The rows of a value. */
function rowsOf(p, target, value, format) {
  if (target === 'parse') return momentRows(p, value, format);
  if (target === 'parseDate') return [['Date', dateText(value)]];
  if (target === 'parseTime') return [['Time', timeText(value)]];
  if (target === 'parsePlain') return [['Date', dateText(value)], ['Time', timeText(value)]];
  return [
    ['Date', value.date ? dateText(value.date) : 'none'],
    ['Time', value.time ? timeText(value.time) : 'none'],
    ['Offset', value.offsetSeconds === null ? 'none' : offsetText(value.offsetSeconds)],
  ];
}

/** The call as it is written in JavaScript. */
function codeOf({ target, text, format, description }) {
  const quoted = (it) => `'${JSON.stringify(it).slice(1, -1).replaceAll('\\"', '"').replaceAll("'", "\\'")}'`;
  const form = format === 'description' ? `, description(${quoted(description)})` : format === 'rfc3339' ? '' : `, ${quoted(format)}`;
  return `${target}(${quoted(text)}${form})`;
}

/** The characters of a text, with its parts in colours and its error marked. */
function displayText(text, parts, wrongAt) {
  const pieces = [];
  let at = 0;
  for (const { start, end, component } of parts) {
    if (start > at) pieces.push(visible(text.slice(at, start)));
    pieces.push(element('span', { class: `part ${colourOf(component)}` }, visible(text.slice(Math.max(start, at), end))));
    at = end;
  }
  if (wrongAt === null) return [...pieces, visible(text.slice(at))];
  const end = wrongAt < text.length ? wrongAt + (text.codePointAt(wrongAt) > 0xffff ? 2 : 1) : wrongAt;
  // The style puts a caret under it.
  const wrong = element('span', { class: 'wrong' }, visible(text.slice(wrongAt, end)) || '\u200b');
  return [...pieces, visible(text.slice(at, wrongAt)), wrong, visible(text.slice(end))];
}

/** The sentence of an error. */
function sentenceOf(error, text) {
  if (MISSING.test(error.message)) {
    return `The text has no ${error.message.replace(MISSING, '')}: choose another under “Parse as”.`;
  }
  const sentence = `${error.message[0].toUpperCase()}${error.message.slice(1)}.`;
  if (!(error instanceof ParseError) || error.index === null) return sentence;
  const where = error.index >= text.length ? 'At the end of the text' : `At character ${[...text.slice(0, error.index)].length + 1}`;
  return error.expected === null ? `${sentence} ${where}.` : `${sentence} ${where}: expected ${error.expected}.`;
}

function showParts(text, parts) {
  const found = parts.map(({ start, end, component }) => element('li', { class: colourOf(component) }, `${component} `, element('b', { class: 'code' }, visible(text.slice(start, end)))));
  fill(by('parts'), ...found);
}

function showRows(rows) {
  fill(by('values').tBodies[0], ...rows.map(([title, text]) => (
    element('tr', {}, element('th', { scope: 'row' }, title), element('td', { class: 'code' }, text)))));
}

/** What the chosen call returns or throws. */
function outcomeOf(p, state, format) {
  try {
    return { value: p[state.target](state.text, format) };
  } catch (error) {
    return { error };
  }
}

/** Shows the text of a state. `format` is what the calls take, or null if the description is invalid. */
export function showText(p, state, format) {
  const { text, target } = state;
  const { value, error } = format === null ? {} : outcomeOf(p, state, format);
  const isWrong = error !== undefined;
  const wrongAt = isWrong ? error.index ?? null : null;
  const limit = wrongAt ?? text.length;
  const isColoured = format !== null && text.length <= MOST_COLOURED && text.isWellFormed?.() !== false;
  const parts = isColoured ? partsOf(state.format, text, limit, (it) => p.locate(it, format)) : [];
  fill(by('display'), ...(text === '' && !isWrong ? [] : displayText(text, parts, wrongAt)));
  showParts(text, parts);
  by('text').setAttribute('aria-invalid', String(isWrong));
  by('verdict').className = isWrong ? 'bad' : 'good';
  by('verdict').textContent = format === null ? '' : isWrong ? sentenceOf(error, text) : 'This text is accepted.';
  showRows(value === undefined ? [] : [...rowsOf(p, target, value, format), ['In JavaScript', codeOf(state)]]);
}

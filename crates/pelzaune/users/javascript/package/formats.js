// The formats by their names, and descriptions. This is the only table of formats: the page and the tests read it too.

/**
 * The names of the formats, with their numbers in the library. That of RFC 3339 is the strict format's, which accepts `T`,
 * `t` or a space between date and time.
 */
export const FORMATS = new Map([
  ['rfc3339', 4],
  ['rfc2822', 2],
  ['iso8601', 3],
]);

/** The format of calls that name none. */
export const DEFAULT_FORMAT = 'rfc3339';

// The numbers of the syntaxes of descriptions.
const BRACKETS = 2;
const STRFTIME = 3;

/** The syntax of a description: strftime's if it contains a `%`, else brackets. */
export function syntaxOf(text) {
  return text.includes('%') ? STRFTIME : BRACKETS;
}

/** The size of the struct that the library stores for a description. */
export const DESCRIPTION_BYTES = 1032;

/** A prepared description, which `description(text)` makes. */
export class Description {
  #prepared;

  /** `prepared` is the struct that the library stores for the text. Any numbers in it are safe for the library. */
  constructor(text, prepared) {
    const isStruct = prepared instanceof Uint8Array && prepared.length === DESCRIPTION_BYTES;
    if (typeof text !== 'string' || !isStruct) throw new TypeError('description(text) makes descriptions');
    this.text = text;
    this.#prepared = prepared;
    Object.freeze(this);
  }

  /** The struct of a description, or undefined for any other value. */
  static preparedOf(value) {
    return typeof value === 'object' && value !== null && #prepared in value ? value.#prepared : undefined;
  }
}

/** The number of a format's name, in any case, or 0 for a description. Any other value is an error. */
export function numberOf(format) {
  if (typeof format !== 'string') {
    if (Description.preparedOf(format) !== undefined) return 0;
    throw new TypeError(`the format must be a name or a description, not ${kindOf(format)}`);
  }
  const number = FORMATS.get(format) ?? FORMATS.get(format.toLowerCase());
  if (number !== undefined) return number;
  const names = [...FORMATS.keys()].join(', ');
  throw new RangeError(`no format is named ${JSON.stringify(format.slice(0, 80))}: pass one of ${names}, or description(text)`);
}

/** What a value is, for a message about its type. */
export function kindOf(value) {
  if (value === null) return 'null';
  if (Array.isArray(value)) return 'an array';
  if (typeof value !== 'object') return typeof value;
  return value.constructor?.name || 'an object';
}

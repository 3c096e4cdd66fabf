// Counts comparisons. It runs in Node and in browsers.

/** A value as text: two values are alike if their texts are equal. */
export function display(value) {
  if (typeof value === 'bigint') return `${value}n`;
  if (typeof value === 'string') return JSON.stringify(value);
  if (typeof value !== 'object' || value === null) return Object.is(value, -0) ? '-0' : String(value);
  if (ArrayBuffer.isView(value) || Array.isArray(value)) {
    return `${value.constructor.name}[${Array.from(value, display).join(', ')}]`;
  }
  return `{${Object.entries(value).map(([key, it]) => `${key}: ${display(it)}`).join(', ')}}`;
}

export class Checks {
  passed = 0;
  failed = [];

  /** Counts whether two values are alike. */
  same(got, expected, what) {
    const [its, other] = [display(got), display(expected)];
    if (its === other) this.passed++;
    else this.failed.push(`${what}: got ${its.slice(0, 300)}, expected ${other.slice(0, 300)}`);
  }

  isTrue(value, what) {
    this.same(Boolean(value), true, what);
  }

  /** Counts whether a call throws an error of that class, with these members, and returns the error. */
  throws(call, type, members, what) {
    let result;
    try {
      result = call();
    } catch (error) {
      const got = Object.fromEntries(Object.keys(members).map((key) => [key, error[key]]));
      this.same({ type: error.name, ...got }, { type, ...members }, `${what}: ${error.message}`);
      return error;
    }
    this.failed.push(`${what}: returns ${display(result).slice(0, 300)}, and doesn't throw ${type}`);
    return undefined;
  }
}

/** Numbers from 0 to `below`, in an order that the seed determines. */
export function random(seed) {
  let state = seed;
  return (below) => {
    // The generator of Park and Miller.
    state = (state * 48271) % 2147483647;
    return state % below;
  };
}

/** One of some values. */
export const pick = (next, values) => values[next(values.length)];

export const padded = (number, width) => String(number).padStart(width, '0');

/** The error of a call, as a value, or what it returns. */
export function answered(call) {
  try {
    return call();
  } catch (error) {
    if (!(error instanceof RangeError)) throw error;
    return [error.name, error.message, error.component, error.index, error.expected];
  }
}

/** The bytes of a text in UTF-8. */
export const utf8 = (text) => new TextEncoder().encode(text);

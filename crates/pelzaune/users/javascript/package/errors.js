// The errors of texts, of descriptions and of moments that a format can't write.

/** A text that a format rejects. */
export class ParseError extends RangeError {
  /**
   * `message` is the library's. The three others are null where the library has none: an impossible date, for instance,
   * matches its format, so it fails at no index.
   */
  constructor(message, { component = null, index = null, expected = null } = {}) {
    super(message);
    this.component = component;
    this.index = index;
    this.expected = expected;
  }
}

/** A description that isn't valid. `index` is that of its first fault. */
export class DescriptionError extends ParseError {}

/** A moment that a format can't write. */
export class FormatError extends RangeError {
  constructor(message, component) {
    super(message);
    this.component = component;
  }
}

for (const it of [ParseError, DescriptionError, FormatError]) {
  Object.defineProperty(it.prototype, 'name', { value: it.name, configurable: true, writable: true });
}

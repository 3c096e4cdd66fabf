// The calls of the package, ready once imported: the module is within the file that this one imports.

import { bytes } from './module.js';
import { createParser } from './parser.js';

export const { parse, parsePlain, parseDate, parseTime, parseParts, parseMany, parseMilliseconds, description, locate, format } =
  createParser(new WebAssembly.Module(bytes()));

export { DescriptionError, FormatError, ParseError } from './errors.js';
export { NO_COUNT } from './many.js';

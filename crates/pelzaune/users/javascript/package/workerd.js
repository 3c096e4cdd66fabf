// The calls of the package for engines that compile no bytes at run time, as edge workers: they import the module itself.

import module from './pelzaune.wasm';
import { createParser } from './parser.js';

export const { parse, parsePlain, parseDate, parseTime, parseParts, parseMany, parseMilliseconds, description, locate, format } =
  createParser(module);

export { DescriptionError, FormatError, ParseError } from './errors.js';
export { NO_COUNT } from './many.js';

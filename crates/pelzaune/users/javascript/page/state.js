// What the reader has chosen. The part of the address after # holds it, so an address is a link to it.

import { FORMATS } from '../package/formats.js';
import { TARGETS } from './examples.js';

const DEFAULTS = { format: 'rfc3339', description: '%d/%b/%Y:%H:%M:%S %z', text: '1985-04-12T23:20:50.52Z', target: 'parse' };

/** The names of the formats, and `description`. */
export const FORMAT_NAMES = [...FORMATS.keys(), 'description'];

/** The state of an address. An unknown name in it becomes the default. */
export function stateOf(hash) {
  const given = new URLSearchParams(hash.replace(/^#/, ''));
  const state = { ...DEFAULTS };
  for (const name of Object.keys(DEFAULTS)) state[name] = given.get(name) ?? DEFAULTS[name];
  if (!FORMAT_NAMES.includes(state.format)) state.format = DEFAULTS.format;
  if (!TARGETS.some(([name]) => name === state.target)) state.target = DEFAULTS.target;
  return state;
}

/** The address of a state. */
export function hashOf({ format, description, text, target }) {
  const kept = new URLSearchParams({ format, text, target });
  if (format === 'description') kept.set('description', description);
  return `#${kept}`;
}

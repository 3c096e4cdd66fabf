import type { Parser } from './index.js';

/**
 * The calls of the package over a WebAssembly.Module of the library, or over an instance of one: pelzaune.wasm, or
 * pelzaune64.wasm, which is as it was proved and linked, for an engine with a memory of 64 bits.
 */
export function createParser(source: object): Parser;

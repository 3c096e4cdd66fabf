// Gives the exports of a lowered module parameters that are Numbers.
//
//     node narrow.mjs < LOWERED.wat > NARROW.wat
//
// A lowered function still takes an i64, a BigInt, for each pointer and length. This reads what wasm-dis prints, and
// exports for each such function a wrapper that takes and returns i32. Each i64 of an export is a pointer or a length,
// below 2^32, which pelzaune.h shows. An export of another kind ends this with an error.
//
// The memory begins with the room that memory.js lays out. If it grew to that, V8 would check at each later access to any
// array whether its buffer is detached.

import { readFileSync } from 'node:fs';

const ROOM_BYTES = 600000;
const PAGE_BYTES = 65536;

const rows = readFileSync(0, 'utf8').split('\n');

/** The parameters and the result of each function by its name. */
function signatures() {
  const found = new Map();
  for (const row of rows) {
    const [, name, rest] = /^ \(func (\$\S+)(.*)$/.exec(row) ?? [];
    if (name === undefined) continue;
    const parameters = [...rest.matchAll(/\(param \$\S+ (\w+)\)/g)].map(([, type]) => type);
    found.set(name, { parameters, result: /\(result (\w+)\)/.exec(rest)?.[1] });
  }
  return found;
}

/** A function that takes i32 for each i64, and calls the other. */
function wrapper(name, target, { parameters, result }) {
  const given = parameters.map((type, index) => {
    const local = `(local.get ${index})`;
    return type === 'i64' ? `(i64.extend_i32_u ${local})` : local;
  });
  const call = `(call ${target} ${given.join(' ')})`;
  const types = parameters.map(() => '(param i32)').join(' ');
  return ` (func $narrow_${name} ${types} (result i32)\n  ${result === 'i64' ? `(i32.wrap_i64 ${call})` : call})`;
}

/** Where the memory that the module doesn't use begins. */
function heapBase() {
  const [, name] = rows.map((row) => /^ \(export "__heap_base" \(global (\$\S+)\)\)$/.exec(row)).find(Boolean);
  const start = ` (global ${name} i64 (i64.const `;
  return Number.parseInt(rows.find((row) => row.startsWith(start)).slice(start.length), 10);
}

const functions = signatures();
const wrappers = [];
const narrow = rows.map((row) => {
  const memory = /^ \(memory (\$\S+) (\d+)\)$/.exec(row);
  if (memory) return ` (memory ${memory[1]} ${Math.max(memory[2], Math.ceil((heapBase() + ROOM_BYTES) / PAGE_BYTES))})`;
  const base = /^ \(global (\$\S+) i64 \(i64.const (\d+)\)\)$/.exec(row);
  if (base) return ` (global ${base[1]} i32 (i32.const ${base[2]}))`;
  if (/^ \(import /.test(row)) throw new Error(`the module imports something: ${row}`);
  const [, name, target] = /^ \(export "(\w+)" \(func (\$\S+)\)\)$/.exec(row) ?? [];
  if (name === undefined) return row;
  const signature = functions.get(target);
  const types = [...signature.parameters, signature.result];
  if (!/^pelzaune_/.test(name) || !types.every((type) => type === 'i32' || type === 'i64')) {
    throw new Error(`an export of an unknown kind: ${name} ${types}`);
  }
  if (!types.includes('i64')) return row;
  wrappers.push(wrapper(name, target, signature));
  return ` (export "${name}" (func $narrow_${name}))`;
});
narrow.splice(narrow.lastIndexOf(')'), 0, ...wrappers);
process.stdout.write(narrow.join('\n'));

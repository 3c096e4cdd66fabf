// Writes the page: one HTML file with its style, its script and the module.
//
//     node page.mjs PACKAGE TARGET.html
//
// The script is one of all modules that page/main.js imports, each in a function of its own, since a page on a disk
// can't import. The policy of the page allows this script, its style and the module, and no connection.

import { createHash } from 'node:crypto';
import { readFileSync, writeFileSync } from 'node:fs';
import { dirname, join, resolve } from 'node:path';
import { fileURLToPath } from 'node:url';

const [, , packageFolder, target] = process.argv;
const folder = fileURLToPath(new URL('../page', import.meta.url));
const names = new Map();
const parts = [];

/** The name of a module in the script. The module and those that it imports are added before. */
function bundled(path) {
  if (names.has(path)) return names.get(path);
  const imports = [];
  const exported = [];
  const text = readFileSync(path, 'utf8')
    .replace(/^import (\{[^}]*\}) from '([^']*)';$/gm, (_, bound, from) => {
      const file = from.startsWith('../package/') ? join(resolve(packageFolder), from.slice('../package/'.length)) : resolve(dirname(path), from);
      imports.push(`const ${bound} = ${bundled(file)};`);
      return '';
    })
    .replace(/^export (function|class|const|async function) (\w+)/gm, (_, kind, name) => {
      exported.push(name);
      return `${kind} ${name}`;
    });
  if (/^(import|export) /m.test(text)) throw new Error(`${path} imports or exports in a way that this script doesn't know`);
  const name = `module${names.size}`;
  names.set(path, name);
  parts.push(`const ${name} = (() => {\n${imports.join('\n')}\n${text.trim()}\nreturn { ${exported.join(', ')} };\n})();`);
  return name;
}

const hashOf = (text) => `'sha256-${createHash('sha256').update(text).digest('base64')}'`;

bundled(join(folder, 'main.js'));
const script = `'use strict';\n${parts.join('\n')}\n`;
const style = readFileSync(join(folder, 'style.css'), 'utf8');
if (/<\/script/i.test(script)) throw new Error('the script would end itself');
const policy = [
  "default-src 'none'", `script-src ${hashOf(script)} 'wasm-unsafe-eval'`, 'worker-src blob:', `style-src ${hashOf(style)}`,
  'img-src data:', "base-uri 'none'", "form-action 'none'",
].join('; ');
const page = readFileSync(join(folder, 'page.html'), 'utf8')
  .replace('/*POLICY*/', () => policy)
  .replace('/*STYLE*/', () => style)
  .replace('/*SCRIPT*/', () => script);
writeFileSync(target, page);

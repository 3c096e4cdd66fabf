// Serves folders to a browser, on loopback.

import { readFile } from 'node:fs/promises';
import { createServer } from 'node:http';
import { extname, join } from 'node:path';

const KINDS = { '.html': 'text/html', '.js': 'text/javascript', '.mjs': 'text/javascript', '.wasm': 'application/wasm' };

// With these a page has SharedArrayBuffer, and clocks that aren't coarse.
const ISOLATED = { 'Cross-Origin-Opener-Policy': 'same-origin', 'Cross-Origin-Embedder-Policy': 'require-corp' };

/** Calls `use` with the address of a server of these folders, by the first parts of their paths. */
export async function withServer(folders, use) {
  const server = createServer(async (request, response) => {
    const path = new URL(request.url, 'http://127.0.0.1').pathname;
    const [, first, ...rest] = path.split('/');
    try {
      const found = await readFile(join(folders[first], ...rest.filter((it) => it !== '..')));
      response.writeHead(200, { 'Content-Type': KINDS[extname(path)] ?? 'application/octet-stream', ...ISOLATED });
      response.end(found);
    } catch {
      response.writeHead(request.url === '/favicon.ico' ? 204 : 404);
      response.end();
    }
  });
  await new Promise((resolve) => server.listen(0, '127.0.0.1', resolve));
  try {
    return await use(`http://127.0.0.1:${server.address().port}`);
  } finally {
    server.closeAllConnections();
    server.close();
  }
}

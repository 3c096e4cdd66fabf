// A client of WebSocket for text messages on loopback, since the Node of Debian has none.

import { randomBytes } from 'node:crypto';
import { connect } from 'node:net';

const TEXT = 1;
const CLOSE = 8;
const PING = 9;
const PONG = 10;

/** A frame of a client, which the standard wants masked. */
function frame(kind, payload) {
  const { length } = payload;
  const extra = length < 126 ? 0 : length < 65536 ? 2 : 8;
  const head = Buffer.alloc(2 + extra + 4);
  head[0] = 0x80 | kind;
  head[1] = 0x80 | (extra === 0 ? length : extra === 2 ? 126 : 127);
  if (extra === 2) head.writeUInt16BE(length, 2);
  if (extra === 8) head.writeBigUInt64BE(BigInt(length), 2);
  const mask = randomBytes(4);
  mask.copy(head, 2 + extra);
  return Buffer.concat([head, payload.map((byte, index) => byte ^ mask[index & 3])]);
}

/** The first frame of a server's bytes, with what is left, or nothing if it isn't whole. */
function firstFrame(bytes) {
  if (bytes.length < 2) return undefined;
  const short = bytes[1] & 127;
  const start = short === 126 ? 4 : short === 127 ? 10 : 2;
  if (bytes.length < start) return undefined;
  const length = short === 126 ? bytes.readUInt16BE(2) : short === 127 ? Number(bytes.readBigUInt64BE(2)) : short;
  if (bytes.length < start + length) return undefined;
  return {
    isLast: (bytes[0] & 0x80) !== 0,
    kind: bytes[0] & 15,
    payload: bytes.subarray(start, start + length),
    rest: bytes.subarray(start + length),
  };
}

/** Reads frames as they come, and passes each message on. */
class Reader {
  constructor(socket, onMessage) {
    this.socket = socket;
    this.onMessage = onMessage;
    this.bytes = Buffer.alloc(0);
    this.parts = [];
  }

  read(chunk) {
    this.bytes = this.bytes.length === 0 ? chunk : Buffer.concat([this.bytes, chunk]);
    for (let found = firstFrame(this.bytes); found !== undefined; found = firstFrame(this.bytes)) {
      this.bytes = found.rest;
      this.take(found);
    }
  }

  take({ kind, payload, isLast }) {
    if (kind === PING) this.socket.write(frame(PONG, payload));
    else if (kind === CLOSE) this.socket.end();
    else if (kind !== PONG) {
      this.parts.push(Buffer.from(payload));
      if (!isLast) return;
      this.onMessage(Buffer.concat(this.parts).toString());
      this.parts = [];
    }
  }
}

/** Connects to a `ws:` address. Calls `onMessage` with each message, and `onEnd` at the end. */
export function openSocket(address, onMessage, onEnd) {
  const { hostname, port, pathname, search } = new URL(address);
  return new Promise((resolve, reject) => {
    const socket = connect(Number(port), hostname);
    let head = Buffer.alloc(0);
    let reader;
    socket.on('error', reject);
    socket.on('close', onEnd);
    socket.on('connect', () => socket.write(
      `GET ${pathname}${search} HTTP/1.1\r\nHost: ${hostname}:${port}\r\nConnection: Upgrade\r\nUpgrade: websocket\r\n`
      + `Sec-WebSocket-Version: 13\r\nSec-WebSocket-Key: ${randomBytes(16).toString('base64')}\r\n\r\n`,
    ));
    socket.on('data', (chunk) => {
      if (reader) return reader.read(chunk);
      head = Buffer.concat([head, chunk]);
      const end = head.indexOf('\r\n\r\n');
      if (end < 0) return undefined;
      if (!head.toString('latin1').startsWith('HTTP/1.1 101')) return reject(new Error(`no WebSocket: ${head}`));
      reader = new Reader(socket, onMessage);
      resolve({ send: (text) => socket.write(frame(TEXT, Buffer.from(text))), close: () => socket.destroy() });
      return reader.read(head.subarray(end + 4));
    });
  });
}

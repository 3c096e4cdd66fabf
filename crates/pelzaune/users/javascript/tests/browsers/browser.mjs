// Starts a browser without a screen, and drives it over a socket on loopback: Chromium by DevTools, Firefox by the
// bidirectional WebDriver.

import { spawn } from 'node:child_process';
import { existsSync } from 'node:fs';
import { mkdtemp, rm, writeFile } from 'node:fs/promises';
import { tmpdir } from 'node:os';
import { delimiter, join } from 'node:path';
import { chromiumTab } from './chromium.mjs';
import { firefoxTab } from './firefox.mjs';
import { openSocket } from './websocket.mjs';

/** The time zone of the browsers. */
export const TIME_ZONE = 'Asia/Tokyo';

const START_MILLISECONDS = 90000;
const COMMAND_MILLISECONDS = 600000;

/** The browsers that tests run in: the program of Debian, its arguments and the driver of a tab. */
const BROWSERS = {
  chromium: {
    program: 'chromium',
    words: (profile) => [
      '--headless=new', '--no-sandbox', '--hide-scrollbars', '--disable-gpu', '--no-first-run', '--disable-background-networking', '--disable-dev-shm-usage',
      '--disable-component-update', '--remote-debugging-port=0', `--user-data-dir=${profile}`, 'about:blank',
    ],
    path: '',
    tab: chromiumTab,
  },
  firefox: {
    program: 'firefox-esr',
    words: (profile) => ['--headless', '--no-remote', '--remote-debugging-port', '0', '--profile', profile, 'about:blank'],
    path: '/session',
    tab: firefoxTab,
  },
};

// A new profile of Firefox shows pages of its own, and asks the network for updates, unless it is told not to.
const FIREFOX_SETTINGS = {
  'app.normandy.enabled': false,
  'app.update.enabled': false,
  'browser.shell.checkDefaultBrowser': false,
  'browser.startup.homepage_override.mstone': 'ignore',
  'datareporting.policy.dataSubmissionEnabled': false,
  'dom.security.https_first': false,
  'extensions.getAddons.cache.enabled': false,
  'extensions.update.enabled': false,
  'network.captive-portal-service.enabled': false,
  'network.connectivity-service.enabled': false,
  'remote.active-protocols': 1,
  'services.settings.server': 'http://127.0.0.1:9',
  'toolkit.telemetry.reportingpolicy.firstRun': false,
};

/** Whether a program is on the path. */
export function isInstalled(name) {
  return process.env.PATH.split(delimiter).some((folder) => existsSync(join(folder, name)));
}

/** The names of the browsers, with the names of their programs. */
export const NAMES = Object.entries(BROWSERS).map(([name, { program }]) => ({ name, program }));

/** The address on which a started browser listens, which it prints. */
function addressOf(child) {
  return new Promise((resolve, reject) => {
    let printed = '';
    const timer = setTimeout(() => reject(new Error(`the browser didn't start: ${printed}`)), START_MILLISECONDS);
    child.stderr.on('data', (chunk) => {
      printed += chunk;
      const [, address] = /(?:DevTools|WebDriver BiDi) listening on (ws:\S+)/.exec(printed) ?? [];
      if (address === undefined) return;
      clearTimeout(timer);
      resolve(address);
    });
    child.on('exit', () => reject(new Error(`the browser ended: ${printed}`)));
  });
}

/** A connection of commands with numbers, and of events. */
async function connection(address) {
  const waiting = new Map();
  const listeners = [];
  let number = 0;
  const onMessage = (text) => {
    const message = JSON.parse(text);
    const command = waiting.get(message.id);
    if (message.id === undefined || message.id === null) return listeners.forEach((listener) => listener(message));
    waiting.delete(message.id);
    if (message.error) return command.reject(new Error(`${command.method}: ${JSON.stringify(message.error)} ${message.message ?? ''}`));
    return command.resolve(message.result);
  };
  const onEnd = () => waiting.forEach(({ method, reject }) => reject(new Error(`${method}: the browser has closed the socket`)));
  const socket = await openSocket(address, onMessage, onEnd);
  return {
    send: (method, params = {}, more = {}) => new Promise((resolve, reject) => {
      const timer = setTimeout(() => reject(new Error(`${method} isn't answered`)), COMMAND_MILLISECONDS);
      const settled = (settle) => (value) => {
        clearTimeout(timer);
        settle(value);
      };
      waiting.set(++number, { method, resolve: settled(resolve), reject: settled(reject) });
      socket.send(JSON.stringify({ id: number, method, params, ...more }));
    }),
    listen: (listener) => listeners.push(listener),
    close: () => socket.close(),
  };
}

/** Ends a browser, and waits until it has. */
async function end(child, profile) {
  const ended = new Promise((resolve) => child.once('exit', resolve));
  if (child.exitCode === null && child.signalCode === null) {
    // A browser's other processes are in its group.
    process.kill(-child.pid, 'SIGKILL');
    await ended;
  }
  await rm(profile, { recursive: true, force: true, maxRetries: 5, retryDelay: 200 });
}

/** Starts a browser, calls `use` with a tab, and ends the browser. */
export async function withBrowser(name, use) {
  const { program, words, path, tab } = BROWSERS[name];
  const profile = await mkdtemp(join(tmpdir(), 'pelzaune-javascript-'));
  if (name === 'firefox') {
    const rows = Object.entries(FIREFOX_SETTINGS).map(([key, value]) => `user_pref("${key}", ${JSON.stringify(value)});\n`);
    await writeFile(join(profile, 'user.js'), rows.join(''));
  }
  const child = spawn(program, words(profile), {
    detached: true, stdio: ['ignore', 'ignore', 'pipe'], env: { ...process.env, HOME: profile, MOZ_HEADLESS: '1', TZ: TIME_ZONE },
  });
  try {
    const wire = await connection((await addressOf(child)) + path);
    const result = await use(await tab(wire));
    wire.close();
    return result;
  } finally {
    await end(child, profile);
  }
}

// The log that the reader pastes or drops. A worker parses it, so that the page never waits.

import { by, element, fill, visible } from './dom.js';

const PASTE_MILLISECONDS = 200;

const counted = (number, one, many) => `${number.toLocaleString('en')} ${number === 1 ? one : many}`;

/** A worker that runs the script of this page. */
function newWorker() {
  const address = URL.createObjectURL(new Blob([by('bundle').textContent], { type: 'text/javascript' }));
  const worker = new Worker(address);
  URL.revokeObjectURL(address);
  return worker;
}

/** A line of the list. */
function listItem({ number, isMissing, note, before, time, after }) {
  return element('li', isMissing ? { class: 'missing' } : {},
    element('span', { class: 'number' }, isMissing ? `${number} ✗` : String(number)),
    visible(before), element('mark', {}, visible(time)), visible(after), element('span', { class: 'note' }, `  ${isMissing ? '✗' : '='} ${note}`));
}

/** The sentence that counts what was found. */
function tallyText({ tally, seconds, range }) {
  const speed = Math.round(tally.lines / Math.max(seconds, 0.0005));
  const missing = tally.missing === 0 ? 'Each has a time.' : `${counted(tally.times, 'has', 'have')} a time, and ${counted(tally.missing, 'has', 'have')} none.`;
  const times = range === null ? '' : ` The times are from ${range[0]} to ${range[1]}.`;
  return `${counted(tally.lines, 'line', 'lines')} in ${seconds.toFixed(3)} seconds, ${counted(speed, 'line', 'lines')} a second. ${missing}${times}`;
}

export class LogPanel {
  /** `choice` returns the chosen format and description, or null if the description is invalid. */
  constructor(module, choice) {
    this.module = module;
    this.choice = choice;
    this.number = 0;
    this.worker = null;
    this.source = null;
    this.answer = null;
    this.timer = 0;
    by('lines').addEventListener('input', () => this.later(() => this.take(by('lines').value === '' ? null : new Blob([by('lines').value]))));
    by('file').addEventListener('change', () => this.takeFile(by('file').files[0]));
    by('only-errors').addEventListener('change', () => this.showLines());
    this.listenToDrops();
  }

  /** A file may be dropped anywhere, since a browser would open it where the page doesn't take it. */
  listenToDrops() {
    const mark = (isOver) => by('drop').classList.toggle('over', isOver);
    document.addEventListener('dragover', (event) => {
      event.preventDefault();
      mark(true);
    });
    document.addEventListener('dragleave', () => mark(false));
    document.addEventListener('drop', (event) => {
      event.preventDefault();
      mark(false);
      this.takeFile(event.dataTransfer.files[0]);
    });
  }

  /** Calls something once the reader pauses. */
  later(call) {
    clearTimeout(this.timer);
    this.timer = setTimeout(call, PASTE_MILLISECONDS);
  }

  takeFile(file) {
    if (file === undefined) return;
    by('lines').value = '';
    this.take(file);
  }

  take(source) {
    this.source = source;
    this.start();
  }

  /** Parses the log anew. What is being parsed is given up. */
  start() {
    this.worker?.terminate();
    this.worker = null;
    this.answer = null;
    const choice = this.choice();
    const isReady = this.source !== null && choice !== null;
    by('tally').textContent = '';
    by('log').hidden = true;
    by('only-errors-field').hidden = true;
    by('progress').hidden = !isReady;
    if (!isReady) return;
    this.worker = newWorker();
    this.worker.onmessage = ({ data }) => this.receive(data);
    this.worker.onerror = (event) => this.receive({ number: this.number, error: event.message });
    this.worker.postMessage({ number: ++this.number, module: this.module, blob: this.source, ...choice });
  }

  receive(answer) {
    if (answer.number !== this.number) return;
    if (answer.progress !== undefined) {
      by('progress').value = answer.progress;
      return;
    }
    by('progress').hidden = true;
    by('progress').value = 0;
    by('tally').className = answer.error === undefined ? '' : 'bad';
    by('tally').textContent = answer.error ?? tallyText(answer);
    if (answer.error !== undefined) return;
    this.answer = answer;
    by('only-errors-field').hidden = answer.errors.length === 0;
    this.showLines();
  }

  showLines() {
    const { listed, errors, tally } = this.answer;
    const isOnlyErrors = by('only-errors').checked && errors.length > 0;
    const lines = isOnlyErrors ? errors : listed;
    const all = isOnlyErrors ? tally.missing : tally.lines;
    const rest = all > lines.length ? [element('li', { class: 'note' }, `The first ${lines.length} of ${all.toLocaleString('en')} are listed.`)] : [];
    fill(by('log'), element('ol', {}, ...lines.map(listItem), ...rest));
    by('log').hidden = lines.length === 0;
  }
}

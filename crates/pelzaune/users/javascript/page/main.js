// The page. Its script runs in the worker too.

import { bytes } from '../package/module.js';
import { createParser } from '../package/parser.js';
import { by, element } from './dom.js';
import { TARGETS, TITLES } from './examples.js';
import { LogPanel } from './log.js';
import { showExamples } from './reference.js';
import { FORMAT_NAMES, hashOf, stateOf } from './state.js';
import { showText } from './text.js';
import { serve } from './worker.js';

/** The page, over the calls of the library. */
class Page {
  constructor(module) {
    this.p = createParser(module);
    this.state = stateOf(location.hash);
    this.makeChoices();
    this.log = new LogPanel(module, () => this.logChoice());
    showExamples((example) => this.choose(example));
    this.listen();
    this.showState();
  }

  makeChoices() {
    for (const name of FORMAT_NAMES) {
      const input = element('input', { type: 'radio', name: 'format', value: name });
      by('formats').append(element('label', {}, input, TITLES[name] ?? name));
    }
    by('target').append(...TARGETS.map(([name, title]) => element('option', { value: name }, title)));
  }

  listen() {
    by('formats').addEventListener('change', (event) => this.change({ format: event.target.value }));
    by('description').addEventListener('input', () => this.change({ description: by('description').value }));
    by('text').addEventListener('input', () => this.change({ text: by('text').value }));
    by('target').addEventListener('change', () => this.change({ target: by('target').value }));
    addEventListener('hashchange', () => {
      this.state = stateOf(location.hash);
      this.showState();
    });
  }

  /** What the calls of the library take for the chosen format, or null if the description is invalid. */
  format() {
    const { format, description } = this.state;
    let error = null;
    let result = format;
    try {
      if (format === 'description') result = this.p.description(description);
    } catch (fault) {
      error = fault;
    }
    by('description').setAttribute('aria-invalid', String(error !== null));
    const where = error === null || error.index === null ? '' : ` At character ${[...description.slice(0, error.index)].length + 1}.`;
    by('description-error').textContent = error === null ? '' : `${error.message[0].toUpperCase()}${error.message.slice(1)}.${where}`;
    return error === null ? result : null;
  }

  /** What the worker takes for it. */
  logChoice() {
    const { format, description } = this.state;
    return this.format() === null ? null : { format, description };
  }

  /** Takes what the reader has changed, and keeps it in the address. */
  change(changed) {
    const isOtherFormat = 'format' in changed || 'description' in changed;
    this.state = { ...this.state, ...changed };
    history.replaceState(null, '', hashOf(this.state));
    this.show();
    if (isOtherFormat && this.log.source !== null) this.log.later(() => this.log.start());
  }

  /** Shows an example. */
  choose({ format, description, text, target }) {
    this.change({ format, text, target, ...(description === undefined ? {} : { description }) });
    this.showState();
    by('text').scrollIntoView({ block: 'center' });
    by('text').focus({ preventScroll: true });
  }

  /** Puts the state into the controls. */
  showState() {
    const { format, description, text, target } = this.state;
    for (const input of by('formats').querySelectorAll('input')) input.checked = input.value === format;
    by('description').value = description;
    by('text').value = text;
    by('target').value = target;
    this.show();
  }

  show() {
    by('description-field').hidden = this.state.format !== 'description';
    showText(this.p, this.state, this.format());
  }
}

if (typeof document === 'undefined') {
  serve();
} else {
  // The tests wait for it.
  window.ready = WebAssembly.compile(bytes()).then((module) => Boolean(new Page(module)));
}

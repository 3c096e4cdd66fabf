// The tables of examples, which are the reference of what each format accepts.

import { by, element, fill } from './dom.js';
import { DESCRIBED, EXAMPLES, TITLES } from './examples.js';

/** The rows of all examples, by the names of the formats. */
export function allExamples() {
  const rows = Object.entries(EXAMPLES).flatMap(([format, { accepted, rejected }]) => [
    ...accepted.map(([text, target, note]) => ({ format, text, target, isAccepted: true, note })),
    ...rejected.map(([text, target, note]) => ({ format, text, target, isAccepted: false, note })),
  ]);
  return [...rows, ...DESCRIBED.map(([description, text, target, isAccepted, note]) => ({ format: 'description', description, text, target, isAccepted, note }))];
}

/** A row of a table. Its button shows the example above. */
function exampleRow(example, choose) {
  const { description, text, isAccepted, note } = example;
  const button = element('button', { type: 'button', class: 'code' }, text);
  button.addEventListener('click', () => choose(example));
  return element('tr', {},
    element('td', {}, button, ...(description === undefined ? [] : [element('code', {}, description)])),
    element('td', { class: isAccepted ? 'good' : 'bad' }, isAccepted ? '✓ accepted' : '✗ rejected'),
    element('td', {}, note));
}

/** Fills the tables. */
export function showExamples(choose) {
  const rows = allExamples();
  const titles = [...new Set(rows.map(({ format }) => format))];
  fill(by('examples'), ...titles.flatMap((format) => {
    const title = TITLES[format] ?? format;
    const heads = [['text', 'Text'], ['result', 'Result'], ['remark', 'Remark']].map(([name, head]) => element('th', { scope: 'col', class: name }, head));
    const body = rows.filter((row) => row.format === format).map((row) => exampleRow(row, choose));
    return [
      element('h3', {}, title),
      element('table', {}, element('caption', { class: 'hidden' }, `Examples of ${title}`), element('thead', {}, element('tr', {}, ...heads)), element('tbody', {}, ...body)),
    ];
  }));
}

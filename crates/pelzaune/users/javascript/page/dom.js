// What the parts of the page share: elements, and the calls of the library.

/** An element of the page by its name. */
export const by = (id) => document.getElementById(id);

/** A new element with attributes, and with texts or elements in it. */
export function element(kind, attributes = {}, ...inside) {
  const made = document.createElement(kind);
  for (const [name, value] of Object.entries(attributes)) made.setAttribute(name, value);
  made.append(...inside);
  return made;
}

/** Replaces what is in an element. */
export function fill(parent, ...inside) {
  parent.replaceChildren(...inside);
}

/** Control characters as pictures of them, so that a text keeps its length on the page. */
export function visible(text) {
  return text.replace(/[\u0000-\u001f\u007f]/g, (it) => String.fromCharCode(it === '\u007f' ? 0x2421 : 0x2400 + it.charCodeAt(0)));
}

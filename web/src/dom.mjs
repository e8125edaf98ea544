// Elements of the page, made in one way: attributes by their names, listeners by on.., children behind them. No style is written here: the page's own
// policy takes styles from its style sheet alone.

const SVG = 'http://www.w3.org/2000/svg';

export const $ = (id) => document.getElementById(id);

export const make = (name, given, ...inside) => filled(document.createElement(name), given, inside);
export const draw = (name, given, ...inside) => filled(document.createElementNS(SVG, name), given, inside);

function filled(element, given, inside) {
  for (const [name, value] of Object.entries(given ?? {})) {
    if (name.startsWith('on')) element.addEventListener(name.slice(2), value);
    else if (value === true) element.setAttribute(name, '');
    else if (value !== false && value !== null && value !== undefined) element.setAttribute(name, value);
  }
  element.append(...shown(inside));
  return element;
}

// children in lists of lists; what is false or nothing is left out
const shown = (inside) => inside.flat(Infinity).filter((part) => part !== null && part !== undefined && part !== false);

// puts these children in the place of all that an element had
export const fill = (element, ...inside) => element.replaceChildren(...shown(inside));

export const button = (text, onclick, given) => make('button', { type: 'button', 'data-focus': text, onclick, ...given }, text);

// Draws, and keeps the focus where it was: on the element that has the same mark, or on `instead` where that is gone.
export function keepingFocus(work, instead) {
  const { id, dataset } = document.activeElement;
  const mark = id ? `#${id}` : dataset.draft ? `[data-draft="${dataset.draft}"]` : dataset.focus ? `[data-focus="${dataset.focus}"]` : null;
  work();
  if (mark === null || document.activeElement.matches(mark)) return;
  (document.querySelector(mark) ?? instead()).focus({ preventScroll: true });
}

export const table = (given, head, rows) =>
  make('table', given, make('thead', null, make('tr', null, head.map((cell) => make('th', { scope: 'col' }, cell)))), make('tbody', null, rows));

// a row whose first cell names it
export const row = (given, name, ...cells) => make('tr', given, make('th', { scope: 'row' }, name), cells.map((cell) => make('td', null, cell)));

export const count = (number, word) => `${number} ${word}${number === 1 ? '' : 's'}`;

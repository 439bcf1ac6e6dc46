// @ts-check
// Small things that all views use: elements made and found, numbers as they are written.

/**
 * @param {string} id
 * @returns {HTMLElement}
 */
export function find(id) {
  const it = document.getElementById(id);
  if (!it) throw new Error(`the page has no ${id}`);
  return it;
}

/**
 * Makes an element: its class, attributes and handlers by name, and what stands in it.
 * @param {string} tag
 * @param {Record<string, any>} [given] `on...` is a handler; false, null and undefined leave an attribute out; true gives it without a value
 * @param {...(Node | string | number | null | undefined | false)} inside
 * @returns {HTMLElement}
 */
export function make(tag, given = {}, ...inside) {
  const it = document.createElement(tag);
  for (const [name, value] of Object.entries(given)) {
    if (name.startsWith('on')) it.addEventListener(name.slice(2), value);
    else if (name === 'style') it.style.cssText = value;
    else if (value === true) it.setAttribute(name, '');
    else if (value !== false && value !== null && value !== undefined) it.setAttribute(name, String(value));
  }
  for (const part of inside)
    if (part !== null && part !== undefined && part !== false) it.append(typeof part === 'number' ? String(part) : part);
  return it;
}

/**
 * A button.
 * @param {string} text
 * @param {() => void} pressed
 * @param {Record<string, any>} [given]
 */
export const button = (text, pressed, given = {}) => make('button', {type: 'button', onclick: pressed, ...given}, text);

/**
 * A number with commas.
 * @param {number} number
 */
export const counted = number => number.toLocaleString('en');

/**
 * A number of things: 1 track, 2 tracks.
 * @param {number} number
 * @param {string} one
 * @param {string} [many]
 */
export const amount = (number, one, many = `${one}s`) => `${counted(number)} ${number === 1 ? one : many}`;

/**
 * @param {number} number
 * @param {number} digits
 */
export const hex = (number, digits) => number.toString(16).toUpperCase().padStart(digits, '0');

/**
 * A track as it is named in words.
 * @param {number} track
 * @param {number} heads
 */
export const trackName = (track, heads) => `Cylinder ${Math.floor(track / heads)}, head ${track % heads}`;

/**
 * The lines of a text, without an empty last one.
 * @param {string} text
 */
export function linesOf(text) {
  const lines = text.split('\n');
  if (lines.at(-1) === '') lines.pop();
  return lines;
}

/**
 * Lets arrows, Home and End move the focus within a row of buttons of which one alone is a stop of the Tab key.
 * @param {HTMLElement} row
 * @param {string} selector
 * @param {(it: HTMLElement) => void} [reached]
 */
export function rove(row, selector, reached = () => {}) {
  row.addEventListener('keydown', event => {
    const all = /** @type {HTMLElement[]} */ ([...row.querySelectorAll(selector)]),
          at = all.indexOf(/** @type {HTMLElement} */ (document.activeElement));
    const to = { ArrowRight: at + 1, ArrowDown: at + 1, ArrowLeft: at - 1, ArrowUp: at - 1, Home: 0, End: all.length - 1 }[event.key];
    if (at < 0 || to === undefined) return;
    const next = all[(to + all.length) % all.length];
    event.preventDefault();
    for (const it of all) it.tabIndex = it === next ? 0 : -1;
    next.focus();
    reached(next);
  });
}

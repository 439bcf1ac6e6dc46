// @ts-check
// A mark below a word of a field that is wrong: the text stands once more behind the field, unseen but for that mark.

import { make } from './dom.mjs';

/** The words that the mark may be below end so. */
const WORD = /^[^\s,]+/;

/** The mark of one field. */
export class FaultMark {
  /** @param {HTMLTextAreaElement} field */
  constructor(field) {
    this.field = field;
    this.root = make('div', { class: 'echo', 'aria-hidden': 'true' });
    field.addEventListener('scroll', () => this.#follow());
  }

  /**
   * Marks the word at a place; or nothing.
   * @param {{ number: number | null, column: number | null } | null} place
   */
  show(place) {
    if (!place || place.number === null || place.column === null) return this.root.replaceChildren();
    const lines = this.field.value.split('\n'), line = lines[place.number] ?? '', before = line.slice(0, place.column);
    const word = WORD.exec(line.slice(place.column))?.[0] ?? line.slice(place.column, place.column + 1);
    const above = lines.slice(0, place.number).map(it => `${it}\n`).join('');
    this.root.replaceChildren(above + before, make('mark', {}, word || '\u00A0'), line.slice(place.column + word.length));
    this.#follow();
  }

  #follow() {
    this.root.scrollTop = this.field.scrollTop;
    this.root.scrollLeft = this.field.scrollLeft;
  }
}

// @ts-check
// A record's bytes beside its fields: those of a field light up under the pointer or the focus, and so does the field of a byte.

import { button, make } from './dom.mjs';

/** @typedef {import('./fields.mjs').Field} Field */

const COUNT = /^( +)([0-9A-F]{4})([0-9A-F]{4})([0-9A-F]{2})( KL )(\d+)( DL )(\d+)(.*)$/;
const BYTES = /^( *([KD]) ([0-9A-F]{6})  )((?:[0-9A-F]{2} ){1,16} *)( )(.*)$/;
const AREAS = /** @type {const} */ ({ K: 'key', D: 'data' });

/** The bytes of one record with their fields. */
export class FieldView {
  /** @param {HTMLElement} root */
  constructor(root) {
    this.root = root;
    /** @type {Field[]} */
    this.fields = [];
    /** @type {number | null} the field that was pressed */
    this.held = null;
    const of = (/** @type {Event} */ event) => {
      const it = /** @type {Element} */ (event.target).closest('[data-field]');
      return it instanceof HTMLElement ? Number(it.dataset.field) : null;
    };
    for (const it of ['pointerover', 'focusin']) root.addEventListener(it, event => this.light(of(event) ?? this.held));
    root.addEventListener('pointerleave', () => this.light(this.held));
    root.addEventListener('click', event => {
      const field = of(event);
      this.held = field;
      this.light(field);
      if (field !== null) this.#reveal(/** @type {Element} */ (event.target).closest('.fields') ? 'i' : 'button', field);
    });
  }

  /**
   * @param {string[]} lines as `dasd dump` prints them
   * @param {Field[]} fields in which a later one stands within an earlier one
   */
  show(lines, fields) {
    this.fields = fields;
    this.held = null;
    const body = make('pre');
    for (const line of lines) body.append(...this.#line(line), '\n');
    const list = make('div', { class: 'fields', role: 'group', 'aria-label': 'Fields of the record' }, ...fields.map((it, at) => {
      const one = button('', () => {}, { 'data-field': at });
      one.append(make('b', {}, it.name), make('span', { class: 'mono' }, it.value));
      return one;
    }));
    this.root.replaceChildren(body, list);
  }

  /**
   * The field of a byte, or -1.
   * @param {'count' | 'key' | 'data'} area
   * @param {number} at
   */
  #fieldAt(area, at) { return this.fields.findIndex(it => it.area === area && at >= it.at && at < it.at + it.length); }

  /**
   * @param {string} line
   * @returns {(Node | string)[]}
   */
  #line(line) {
    const count = COUNT.exec(line), bytes = BYTES.exec(line);
    if (count) {
      const [, blank, cylinder, head, record, key, keyLength, data, dataLength, rest] = count;
      const part = (/** @type {number} */ at, /** @type {string} */ text) => this.#part(this.#fieldAt('count', at), text);
      return [make('span', { class: 'head-line' }, blank, part(0, cylinder), part(2, head), part(4, record), key, part(5, keyLength), data, part(6, dataLength), rest)];
    }
    if (!bytes) return [make('span', { class: 'head-line' }, line)];
    const [, offset, letter, at, digits, gap, characters] = bytes, area = AREAS[/** @type {'K' | 'D'} */ (letter)];
    const each = digits.trimEnd().split(' '), from = parseInt(at, 16);
    const runs = this.#runs(area, from, each.length), end = digits.slice(each.length * 3 - 1);
    const hex = runs.flatMap(it => [this.#part(it.field, each.slice(it.from, it.to).join(' ')), it.to < each.length ? ' ' : end]);
    const letters = [...characters], told = runs.map(it => this.#part(it.field, letters.slice(it.from, it.to).join('')));
    return [make('span', { class: 'offset' }, offset), ...hex, make('span', { class: 'ebcdic' }, gap, ...told, letters.slice(each.length).join(''))];
  }

  /**
   * The bytes of a line, as runs of one field.
   * @param {'key' | 'data'} area
   * @param {number} at
   * @param {number} length
   */
  #runs(area, at, length) {
    /** @type {{field: number, from: number, to: number}[]} */
    const runs = [];
    for (let byte = 0; byte < length; byte++) {
      const field = this.#fieldAt(area, at + byte), last = runs.at(-1);
      if (last?.field === field) last.to = byte + 1;
      else runs.push({ field, from: byte, to: byte + 1 });
    }
    return runs;
  }

  /**
   * @param {number} field
   * @param {string} text
   * @returns {Node | string}
   */
  #part(field, text) { return field < 0 ? text : make('i', { 'data-field': field }, text); }

  /**
   * Lights a field and its bytes, or nothing.
   * @param {number | null} field
   */
  light(field) {
    for (const it of /** @type {NodeListOf<HTMLElement>} */ (this.root.querySelectorAll('[data-field]')))
      it.classList.toggle('lit', it.dataset.field === String(field));
  }

  /**
   * @param {'i' | 'button'} kind
   * @param {number} field
   */
  #reveal(kind, field) { this.root.querySelector(`${kind}[data-field="${field}"]`)?.scrollIntoView({ block: 'nearest' }); }
}

// @ts-check
// Makes a channel command word: a command by its name, a data address, flags and a count. Names are those of `dasd explain ccw`.

import { button, hex, make } from './dom.mjs';

/** The codes of these drives' commands, and of Transfer In Channel; those with the multi-track bit have 80 added. */
const CODES = [
  0x07, 0x0B, 0x1B, 0x13, 0x1F, 0x31, 0x51, 0x71, 0x29, 0x49, 0x69, 0x39, 0x06, 0x0E, 0x1E, 0x12, 0x16, 0x1A, 0x02, 0x05, 0x0D, 0x1D, 0x15,
  0x19, 0x04, 0x03, 0x08
];
const MULTI_TRACK = new Set([0x31, 0x51, 0x71, 0x29, 0x49, 0x69, 0x39, 0x06, 0x0E, 0x1E, 0x12, 0x16, 0x1A]);
const FLAGS = /** @type {[number, string][]} */ (
  [[0x80, 'chain data'], [0x40, 'chain command'], [0x20, 'suppress length indication'], [0x10, 'skip'], [0x08, 'interruption']]);
const COUNTS = /** @type {Record<number, number>} */ ({
  0x07: 6,
  0x0B: 6,
  0x1B: 6,
  0x13: 1,
  0x1F: 1,
  0x31: 5,
  0x51: 5,
  0x71: 5,
  0x39: 4,
  0x12: 8,
  0x1A: 5,
  0x02: 24,
  0x04: 6,
  0x03: 1,
  0x08: 0,
  0x19: 5
});

/**
 * The sixteen digits of a word.
 * @param {number} code
 * @param {number} address
 * @param {number} flags
 * @param {number} count
 */
export const wordOf = (code, address, flags, count) =>
  hex(code, 2) + hex(address & 0xFFFFFF, 6) + hex(flags, 2) + '00' + hex(count & 0xFFFF, 4);

/** A form that is opened below the deck. */
export class WordBuilder {
  /** @param {{explain: (kind: string, digits: string) => Promise<string>, insert: (digits: string) => void}} hooks */
  constructor(hooks) {
    this.hooks = hooks;
    const field = (/** @type {string} */ value, /** @type {string} */ label) => /** @type {HTMLInputElement} */ (
      make('input', { type: 'text', class: 'short mono', value, 'aria-label': label, maxlength: 6, spellcheck: 'false' }));
    this.command = /** @type {HTMLSelectElement} */ (make('select', { 'aria-label': 'Command' }));
    this.multi = /** @type {HTMLInputElement} */ (make('input', { type: 'checkbox' }));
    this.address = field('000500', 'Data address, hexadecimal');
    this.count = field('6', 'Count, decimal');
    this.flags = FLAGS.map(([bit, name]) => ({ bit, name, box: /** @type {HTMLInputElement} */ (make('input', { type: 'checkbox' })) }));
    this.shown = make('code', {});
    const ticks = [
      ...this.flags.map(it => make('label', { class: 'tick' }, it.box, it.name)),
      make('label', { class: 'tick' }, this.multi, 'on to the next head')
    ];
    const grid = make('div', { class: 'grid' }, make('span', { class: 'soft' }, 'Command'), this.command,
      make('span', { class: 'soft' }, 'Address'), make('span', {}, this.address, ' count ', this.count),
      make('span', { class: 'soft' }, 'Flags'), make('span', { class: 'flags' }, ...ticks));
    const form = make('div', {}, grid, make('p', { class: 'actions' }, this.shown, button('Insert', () => hooks.insert(this.digits))));
    this.root = make('details', { class: 'builder' }, make('summary', {}, 'Make a channel command word'), form);
    this.root.addEventListener('toggle', () => this.#fill(), { once: true });
    for (const it of ['input', 'change']) form.addEventListener(it, () => this.#draw());
    this.command.addEventListener('change', () => {
      this.count.value = String(COUNTS[Number(this.command.value)] ?? 80);
      this.#draw();
    });
  }

  get digits() {
    const code = Number(this.command.value), flags = this.flags.reduce((sum, it) => sum + (it.box.checked ? it.bit : 0), 0);
    return wordOf(code + (this.multi.checked && MULTI_TRACK.has(code) ? 0x80 : 0), parseInt(this.address.value, 16) || 0, flags,
      Number(this.count.value) || 0);
  }

  // The names of commands, once the form is opened.
  async #fill() {
    const texts = await Promise.all(CODES.map(code => this.hooks.explain('ccw', wordOf(code, 0, 0, 1))));
    this.command.replaceChildren(
      ...CODES.map((code, at) => make('option', { value: code }, /^command (.. [^:]*)/.exec(texts[at])?.[1] ?? hex(code, 2))));
    this.#draw();
  }

  #draw() {
    this.multi.disabled = !MULTI_TRACK.has(Number(this.command.value));
    this.shown.textContent = this.digits;
  }
}

// @ts-check
// The choice of a deck: the page's examples, the decks in which Hercules differs, and the vectors of the conformance suite.

import { amount, button, find, make } from './dom.mjs';
import { titleOf } from './drafts.mjs';

/** @typedef {import('./shapes.mjs').Example} Example */
/** @typedef {import('./drafts.mjs').Draft} Draft */

const MOST = 60;
const KINDS = {
  page: 'Decks of the pages',
  hercules: 'Where Hercules 3.13 differs',
  vector: 'Vectors of the conformance suite'
};

/**
 * All that a deck is found by.
 * @param {Example} it
 */
const searched = it => [it.name, it.about, it.group, it.kind, it.deck].join(' ').toLowerCase();

/** A dialog with a field that narrows the choice. */
export class Picker {
  /** @param {{picked: (example: Example) => void, drafts: import('./drafts.mjs').Drafts, draft: (draft: Draft) => void}} hooks */
  constructor(hooks) {
    this.hooks = hooks;
    this.dialog = /** @type {HTMLDialogElement} */ (find('picker'));
    /** @type {Example[]} */
    this.all = [];
    this.field = /** @type {HTMLInputElement} */ (make('input', {
      type: 'search',
      id: 'picker-find',
      placeholder: 'Find: a rule, a command, a name',
      'aria-label': 'Find a deck',
      autocomplete: 'off',
      spellcheck: 'false',
      style: 'flex: 1'
    }));
    this.list = make('div', { class: 'body' });
    this.count = make('span', { class: 'soft', role: 'status' });
    this.here = /** @type {HTMLInputElement} */ (make('input', { type: 'checkbox' }));
    const tick =
      make('label', { class: 'tick', title: 'and not over those that it comes with' }, this.here, 'over the drives that are there');
    const title = make('h2', { id: 'picker-title' }, 'Pick a deck'), close = button('Close', () => this.dialog.close());
    this.dialog.replaceChildren(make('div', { class: 'bar' }, title, this.field, this.count, tick, close), this.list);
    this.field.addEventListener('input', () => this.draw());
    this.dialog.addEventListener('click', event => {
      if (event.target === this.dialog) this.dialog.close();
    });
    this.dialog.addEventListener('keydown', event => this.#press(event));
  }

  /** Whether a deck is to run over the drives that are there, and not over its own. */
  get isHere() { return this.here.checked; }

  /** @param {Example[]} all */
  open(all) {
    this.all = all;
    this.draw();
    this.dialog.showModal();
    this.field.focus();
    this.field.select();
  }

  draw() {
    const wanted = this.field.value.trim().toLowerCase().split(/\s+/).filter(Boolean);
    const fits = this.all.filter(it => wanted.every(word => searched(it).includes(word)));
    this.count.textContent = amount(fits.length, 'deck');
    const groups = /** @type {(keyof typeof KINDS)[]} */ (Object.keys(KINDS)).filter(kind => fits.some(it => it.kind === kind));
    this.list.replaceChildren(...this.#drafts(wanted), ...groups.flatMap(group => {
      const some = fits.filter(it => it.kind === group), shown = wanted.length ? some.slice(0, 3 * MOST) : some.slice(0, MOST);
      const rest = some.length - shown.length;
      return [
        make('h3', {}, `${KINDS[group]} (${some.length})`), ...shown.map(it => this.#choice(it)),
        ...(rest ? [make('p', { class: 'soft', style: 'padding: 4px 14px' }, `and ${amount(rest, 'more')}: narrow them by a word above`)] :
                   [])
      ];
    }));
  }

  // The visitor's own, which the browser keeps.
  /** @param {string[]} wanted */
  #drafts(wanted) {
    const all = this.hooks.drafts.all().filter(it => wanted.every(word => it.text.toLowerCase().includes(word)));
    if (!all.length) return [];
    return [make('h3', {}, `Yours, kept in this browser (${all.length})`), ...all.map(it => this.#draft(it))];
  }

  /** @param {Draft} draft */
  #draft(draft) {
    const title = titleOf(draft.text), it = button(title, () => {
      this.dialog.close();
      this.hooks.draft(draft);
    }, { class: 'choice' });
    it.append(make('span', {}, new Date(draft.at).toLocaleString('en', { dateStyle: 'medium', timeStyle: 'short' })));
    const off = button('×', () => {
      this.hooks.drafts.remove(draft.id);
      this.draw();
    }, { class: 'off', 'aria-label': `Delete the draft ${title}` });
    return make('div', { class: 'draft' }, it, off);
  }

  /** @param {Example} example */
  #choice(example) {
    const it = button(example.name, () => {
      this.dialog.close();
      this.hooks.picked(example);
    }, { class: 'choice' });
    if (example.about) it.append(make('span', {}, example.about));
    return it;
  }

  // The arrows lead through the list.
  /** @param {KeyboardEvent} event */
  #press(event) {
    if (event.key !== 'ArrowDown' && event.key !== 'ArrowUp') return;
    const all = /** @type {HTMLElement[]} */ ([...this.list.querySelectorAll('.choice')]),
          at = all.indexOf(/** @type {HTMLElement} */ (document.activeElement));
    const to = event.key === 'ArrowDown' ? at + 1 : at - 1;
    event.preventDefault();
    if (to < 0) this.field.focus();
    else all[Math.min(to, all.length - 1)]?.focus();
  }
}

// @ts-check
// Two packs compared: the tracks that differ in a list, and both sides of one beside each other. The words are those of `dasd compare`.

import { amount, button, find, linesOf, make, trackName } from './dom.mjs';
import { trackDigits } from './records.mjs';

/** @typedef {import('./shapes.mjs').Difference} Difference */
/** @typedef {import('./shapes.mjs').Volume} Volume */
/**
 * @typedef {object} Comparison
 * @property {[Volume, Volume]} pair
 * @property {Difference[]} differences
 * @property {string} sum how many tracks differ, or why none can be compared
 */

const MOST = 2000;

/** The view of a comparison. */
export class Compare {
  /** @type {[Volume, Volume] | null} */
  #pair = null;

  /**
   * @param {import('./engine.mjs').Engine} engine
   * @param {{open: () => void, ran: () => void, track: (track: number) => void}} hooks
   */
  constructor(engine, hooks) {
    this.engine = engine;
    this.hooks = hooks;
    this.root = find('compare');
    this.heads = 1;
    this.at = -1;
    this.list = make('div', { class: 'body compare-list' });
    this.title = make('h2', { id: 'compare-title' }, 'Compare');
    this.told = make('p', { class: 'soft', style: 'padding: 8px 12px', role: 'status' });
    this.changes = /** @type {HTMLButtonElement} */ (button('What the deck changed', () => hooks.ran(), { disabled: true }));
    const bar = make('div', { class: 'bar' }, this.title, make('span', { class: 'grow' }), this.changes,
      button('Another pack…', () => hooks.open(), { id: 'compare-open' }));
    this.sides =
      ['The volume', 'The other'].map(name => ({ title: make('h2', {}, name), body: make('div', { class: 'body', tabindex: 0 }) }));
    this.root.replaceChildren(make('section', { class: 'pane', 'aria-labelledby': 'compare-title' }, bar, this.told, this.list),
      ...this.sides.map(it => make('section', { class: 'pane' }, make('div', { class: 'bar' }, it.title), it.body)));
    this.clear();
  }

  clear() {
    this.at = -1;
    this.told.textContent =
      'Open another pack of the same geometry, or run a deck that writes: each track that differs is framed in the picture, and listed here.';
    this.list.replaceChildren();
    for (const it of this.sides) it.body.replaceChildren();
  }

  /**
   * Where two volumes differ.
   * @param {Volume} one
   * @param {Volume} other
   * @returns {Promise<Comparison>}
   */
  async differ(one, other) {
    const { same, geometry, tracks } = await this.engine.ask('compare', one.number, other.number);
    const differences = tracks.flatMap((/** @type {any} */ it) => it.differences.map(
                                         (/** @type {string} */ text) => ({ track: it.cylinder * other.heads + it.head, text })));
    const sum =
      geometry ?? (same ? 'every track is the same.' : `${amount(tracks.length, 'track')} ${tracks.length === 1 ? 'differs' : 'differ'}.`);
    return { pair: [one, other], differences, sum };
  }

  /**
   * @param {Comparison} comparison
   * @param {boolean} isFormer whether it is of the same volume before and after a deck
   * @param {boolean} isShown whether the first track is chosen
   */
  show({ pair, differences, sum }, isFormer, isShown) {
    const [one, other] = isFormer ? [`${pair[0].name} before the deck`, `${pair[1].name} after it`] : pair.map(it => it.name);
    this.clear();
    this.#pair = pair;
    this.heads = pair[1].heads;
    this.told.textContent = `${one} and ${other}: ${sum}`;
    this.sides[0].title.textContent = one;
    this.sides[1].title.textContent = other;
    this.list.replaceChildren(...differences.slice(0, MOST).map(it => this.#row(it)),
      ...(differences.length > MOST ?
          [make('p', { class: 'soft', style: 'padding: 4px 12px' }, `and ${amount(differences.length - MOST, 'more')}`)] :
          []));
    if (isShown && differences.length) this.choose(differences[0].track);
  }

  /** @param {Difference} difference */
  #row({ track, text }) {
    const it = button('', () => this.choose(track), { 'data-track': track, 'aria-pressed': false });
    it.append(make('span', { class: 'mono' }, trackDigits(track, this.heads)), make('span', {}, text));
    return it;
  }

  /**
   * Shows both sides of a track.
   * @param {number} track
   */
  async choose(track) {
    this.at = track;
    for (const it of this.list.querySelectorAll('[data-track]'))
      it.setAttribute('aria-pressed', String(Number(/** @type {HTMLElement} */ (it).dataset.track) === track));
    this.hooks.track(track);
    const texts = (await this.#dumps(track)).map(it => linesOf(it));
    if (this.at !== track) return;
    const others = texts.map(it => new Set(it));
    texts.forEach((lines, side) => {
      const body = make('pre', { 'aria-label': `${trackName(track, this.heads)} of ${this.sides[side].title.textContent}` });
      for (const line of lines) body.append(others[1 - side].has(line) ? line : make('span', { class: 'differs' }, line), '\n');
      this.sides[side].body.replaceChildren(body);
    });
    this.sides[0].body.querySelector('.differs')?.scrollIntoView({ block: 'nearest' });
  }

  /**
   * A track as `dasd dump` prints it, on each side.
   * @param {number} track
   * @returns {Promise<string[]>}
   */
  async #dumps(track) {
    const where = [Math.floor(track / this.heads), track % this.heads];
    return Promise.all((this.#pair ?? []).map(
      it => this.engine.ask('dump', it.number, ...where).then(({ text }) => text, fault => fault.message)));
  }
}

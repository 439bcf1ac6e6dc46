// @ts-check
// The decks that a visitor wrote, kept in the browser's own storage as they are typed. Where it stores nothing, that is said.

/** @typedef {import('./deck_editor.mjs').Language} Language */
/** @typedef {{id: number, text: string, language: Language, at: number}} Draft `id`: when it was begun; `at`: when it was changed, both in ms */

const KEY = 'sixambra.drafts';
const MOST = 20;
const MOST_CHARACTERS = 500_000;
const MOST_OF_TITLE = 60;

/** All drafts; other pages of the same browser have the same ones. */
export class Drafts {
  /** Whether the browser has kept what was given last. */
  isKept = true;
  /** @type {number | null} the draft that is being written */
  current = null;

  /**
   * @param {() => Pick<Storage, 'getItem' | 'setItem'>} storage asked for each time: a browser may refuse it
   * @param {() => number} [clock]
   */
  constructor(storage, clock = Date.now) {
    this.storage = storage;
    this.clock = clock;
  }

  /**
   * The drafts, the latest first.
   * @returns {Draft[]}
   */
  all() {
    try {
      const all = JSON.parse(this.storage().getItem(KEY) ?? '[]');
      return all.filter((/** @type {any} */ it) => typeof it?.text === 'string' && Number.isFinite(it.id) && Number.isFinite(it.at));
    } catch {
      return [];
    }
  }

  /**
   * Keeps what is written.
   * @param {string} text
   * @param {Language} language
   */
  keep(text, language) {
    const others = this.all().filter(it => it.id !== this.current), at = this.clock();
    this.current ??= Math.max(at, ...others.map(it => it.id + 1));
    const all = [{ id: this.current, text, language, at }, ...others].slice(0, MOST);
    while (all.length > 1 && all.reduce((sum, it) => sum + it.text.length, 0) > MOST_CHARACTERS) all.pop();
    this.isKept = this.#put(all);
  }

  /** @param {number} id */
  remove(id) {
    if (this.current === id) this.current = null;
    this.#put(this.all().filter(it => it.id !== id));
  }

  /** @param {Draft[]} all */
  #put(all) {
    try {
      this.storage().setItem(KEY, JSON.stringify(all));
      return true;
    } catch {
      return false;
    }
  }
}

/**
 * What a draft is called: its first words.
 * @param {string} text
 */
export function titleOf(text) {
  const line = text.split('\n').map(it => it.replace(/^\s*\*?\s*/, '').trim()).find(Boolean) ?? 'An empty deck';
  return line.length > MOST_OF_TITLE ? `${line.slice(0, MOST_OF_TITLE)}…` : line;
}

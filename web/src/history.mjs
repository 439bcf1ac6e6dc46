// @ts-check
// What Undo goes back to: the drives that were there with their volumes, by the engine's numbers, and the text of the deck. It is bounded by
// steps and by the bytes that it alone holds; a pack that is read in slices, and what two states of a pack have in common, cost nothing.

/** @typedef {import('./deck_view.mjs').Written} Written */
/** @typedef {{address: number, number: number, name: string, bytes: number, origin?: string}} Stood a drive and its volume */
/**
 * @typedef {object} Past
 * @property {Stood[]} drives
 * @property {number} shown the place of the drive that was shown, or -1
 * @property {boolean} isReplaced whether other packs took their place, and not what a deck left of them
 * @property {Written | null} written the text that another one took the place of, if one did
 */

const MOST_STEPS = 12;
const MOST_BYTES = 128 * 1024 * 1024;

/** The steps back, the latest last. */
export class History {
  /** @type {Past[]} */
  past = [];

  /**
   * @param {(kept: number[], beside: number[]) => Promise<number>} weigh the bytes that volumes hold, and those beside them don't
   * @param {(lost: Past) => void} dropped a step that is no longer kept
   */
  constructor(weigh, dropped) {
    this.weigh = weigh;
    this.dropped = dropped;
  }

  /** The numbers of all volumes that a step has. */
  get numbers() { return this.past.flatMap(it => it.drives.map(drive => drive.number)); }

  /**
   * Takes a step; the oldest ones go where there are too many, or where they hold too much.
   * @param {Past} step
   */
  add(step) {
    this.past.push(step);
    if (this.past.length > MOST_STEPS) this.#drop();
  }

  /** @param {number[]} beside the volumes that are there anyway */
  async trim(beside) {
    while (this.past.length && await this.weigh(this.numbers, beside) > MOST_BYTES) this.#drop();
  }

  #drop() {
    const lost = this.past.shift();
    if (lost) this.dropped(lost);
  }

  /** The latest step, which is no longer kept. */
  take() { return this.past.pop() ?? null; }
}

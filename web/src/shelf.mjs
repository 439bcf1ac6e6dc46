// @ts-check
// The volumes that are open in the engine: made, and closed when nothing on the page has them any more.

import { volumeOf } from './shapes.mjs';

/** @typedef {import('./engine.mjs').Engine} Engine */
/** @typedef {import('./shapes.mjs').Volume} Volume */
/** @typedef {import('./drives.mjs').Drive} Drive */

const HEADER = 512;

/** All open volumes. */
export class Shelf {
  /** @type {Set<number>} */
  #open = new Set();

  /** @param {Engine} engine */
  constructor(engine) { this.engine = engine; }

  /**
   * Opens the files of one image, whose bytes are the engine's from then on.
   * @param {Map<string, Uint8Array | Blob>} files
   * @returns {Promise<Volume>}
   */
  async open(files) {
    const name = [...files.keys()].join(' + ');
    const bytes = [...files.values()].reduce((sum, it) => sum + (it instanceof Uint8Array ? it.length : it.size), 0);
    try {
      return this.#kept(await this.engine.give('open', files), name, bytes);
    } catch (fault) {
      throw new Error(`${name}: ${/** @type {Error} */ (fault).message}`);
    }
  }

  /**
   * A new volume.
   * @param {string} kind its model and cylinders, as `2314 203`
   * @param {string} [name]
   */
  async format(kind, name = 'new.ckd') {
    const [model, cylinders] = kind.split(' ').map(Number), made = await this.engine.ask('format', model, cylinders, name);
    return { ...this.#kept(made, name, HEADER + cylinders * made.look.geometry.heads * made.look.geometry.slotSize), origin: kind };
  }

  /**
   * A new volume, with the name that it has at a drive's address.
   * @param {number} address
   * @param {string} kind its model and cylinders, as `2314 203`
   */
  formatAt(address, kind) { return this.format(kind, `new-${address.toString(16)}.ckd`); }

  /**
   * A volume that is open still, by its number.
   * @param {import('./history.mjs').Stood} stood
   */
  async again({ number, name, bytes, origin }) { return { ...volumeOf(number, name, bytes, await this.engine.ask('look', number)), origin }; }

  /**
   * What a deck left of a drive's volume.
   * @param {number} deck
   * @param {Drive} drive
   */
  async left(deck, { address, volume }) {
    return { ...this.#kept(await this.engine.ask('left', deck, address), volume.name, volume.bytes), origin: volume.origin };
  }

  /**
   * @param {{volume: number, look: import('./shapes.mjs').Look}} opened
   * @param {string} name
   * @param {number} bytes
   */
  #kept({ volume, look }, name, bytes) {
    this.#open.add(volume);
    return volumeOf(volume, name, bytes, look);
  }

  /**
   * Closes all volumes but these.
   * @param {(number | undefined)[]} wanted their numbers
   */
  keep(wanted) {
    const numbers = new Set(wanted);
    for (const it of [...this.#open].filter(number => !numbers.has(number))) {
      this.#open.delete(it);
      this.engine.ask('close', it).catch(() => {});
    }
  }
}

// @ts-check
// The decks that come with the page, unpacked when one is asked for first, and the drives that each runs over.

import { unpacked } from './engine.mjs';
import { drivesOf } from './examples.mjs';

/** @typedef {import('./examples.mjs').Examples} Examples */
/** @typedef {import('./shapes.mjs').Example} Example */

/** The decks to be picked. */
export class ExampleDecks {
  /** @type {Promise<Examples> | null} */
  #read = null;

  /** @param {import('./shelf.mjs').Shelf} shelf where their volumes are opened */
  constructor(shelf) { this.shelf = shelf; }

  /** @returns {Promise<Examples>} */
  #all() { return this.#read ??= unpacked('examples.json').then(bytes => JSON.parse(new TextDecoder().decode(bytes))); }

  /** @returns {Promise<Example[]>} all of them, in their order */
  async all() { return (await this.#all()).examples; }

  /**
   * The drives that a deck comes with, their volumes opened.
   * @param {Example} example
   * @returns {Promise<import('./drives.mjs').Drive[]>}
   */
  async drives(example) {
    const drives = [];
    for (const it of await drivesOf((await this.#all()).images, example)) {
      const volume = await ('files' in it ? this.shelf.open(it.files) : this.shelf.formatAt(it.address, `${it.model} ${it.cylinders}`));
      drives.push({ address: it.address, volume });
    }
    return drives;
  }
}

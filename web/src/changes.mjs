// @ts-check
// What would be lost: packs that a deck changed and nobody saved, and the steps of Undo; with the marks that say so.

import { find } from './dom.mjs';
import { History } from './history.mjs';

/** @typedef {import('./deck_view.mjs').Written} Written */
/** @typedef {import('./drives.mjs').Drives} Drives */

const TITLE = document.title;

/** The changes since a pack was opened, or saved. */
export class Changes {
  /** @type {Set<number>} the numbers of volumes that a deck changed, and that nobody saved */
  unsaved = new Set();

  /**
   * @param {import('./engine.mjs').Engine} engine
   * @param {import('./shelf.mjs').Shelf} shelf
   * @param {{drives: () => Drives, beside: () => (import('./shapes.mjs').Volume | null)[], tell: (text: string) => void}} hooks `beside`: the
   *   volumes that the page has beside those of its drives
   */
  constructor(engine, shelf, hooks) {
    this.shelf = shelf;
    this.hooks = hooks;
    this.history = new History((kept, beside) => engine.ask('weigh', kept, beside), lost => this.#dropped(lost));
  }

  /**
   * The drives as they are can be brought back, and a text that another one is going to take the place of.
   * @param {{isReplaced?: boolean, written?: Written | null}} step
   */
  remember({ isReplaced = false, written = null }) {
    const { all, shown } = this.hooks.drives();
    const drives = all.map(({ address, volume: { number, name, bytes, origin } }) => ({ address, number, name, bytes, origin }));
    this.history.add({ drives, shown: all.findIndex(it => it === shown), isReplaced, written });
    this.mark();
  }

  /** @param {import('./history.mjs').Past} past a step that Undo has no more */
  #dropped({ drives, isReplaced }) {
    const lost = drives.filter(it => isReplaced && this.unsaved.has(it.number)).map(it => it.name);
    if (lost.length) this.hooks.tell(`Undo has reached its bounds, and no longer has ${lost.join(', ')} as a deck changed it.`);
  }

  /** Volumes that nothing here has any more are closed. */
  async tidy() {
    const close = () => this.shelf.keep([...this.#numbers, ...this.history.numbers]);
    close();
    await this.history.trim(this.#numbers);
    close();
    this.mark();
  }

  /** The numbers of the volumes that are shown or compared. */
  get #numbers() {
    return [...this.hooks.drives().all.map(it => it.volume), ...this.hooks.beside()].flatMap(it => (it ? [it.number] : []));
  }

  /** Whether a pack that a deck changed is not saved, here or for Undo. */
  get areThere() {
    const former = this.history.past.filter(it => it.isReplaced).flatMap(it => it.drives.map(drive => drive.number));
    return [...this.hooks.drives().all.map(it => it.volume.number), ...former].some(it => this.unsaved.has(it));
  }

  /** Save has a mark while the volume that is shown is not saved; Undo is there while it has a step. */
  mark() {
    const drives = this.hooks.drives(), volume = drives.shown?.volume, save = find('save'), isUnsaved = Boolean(volume && this.unsaved.has(volume.number));
    save.classList.toggle('unsaved', isUnsaved);
    save.title = isUnsaved ? 'A deck changed this pack, and it is not saved' : '';
    document.title = `${isUnsaved ? '• ' : ''}${TITLE}`;
    /** @type {HTMLButtonElement} */ (save).disabled = !volume;
    /** @type {HTMLButtonElement} */ (find('undo')).disabled = !this.history.past.length;
    drives.draw();
  }
}

// @ts-check
// Files that the visitor picks or drops, and what they are for.

import { find } from './dom.mjs';
import { inOrder, listenForDrops } from './files.mjs';

/** The dialog for files, and what is dropped on the page. */
export class Incoming {
  /** What the next files are for: `volume`, `other` (the other side of a comparison), or the address of a drive. */
  wanted = 'volume';

  /**
   * @param {{taken: (files: File[], wanted: string) => void, dropped: () => string}} hooks `dropped`: what files are for that are dropped now
   */
  constructor(hooks) {
    const field = /** @type {HTMLInputElement} */ (find('files'));
    field.addEventListener('change', () => {
      const list = inOrder(field.files ?? []);
      field.value = '';
      if (list.length) hooks.taken(list, this.wanted);
      this.wanted = 'volume';
    });
    listenForDrops(list => hooks.taken(list, hooks.dropped()));
    for (const id of ['open', 'empty-open']) find(id).addEventListener('click', () => this.pick('volume'));
  }

  /** @param {string} wanted */
  pick(wanted) {
    this.wanted = wanted;
    find('files').click();
  }
}

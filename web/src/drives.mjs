// @ts-check
// The drives that a deck runs over: up to eight on a channel, on the channels 0 to 6, each with its volume.

import { button, find, hex, make } from './dom.mjs';

/** @typedef {import('./shapes.mjs').Volume} Volume */
/** @typedef {{address: number, volume: Volume}} Drive */

const MOST_ON_A_CHANNEL = 8;
const CHANNELS = 7;

/** The row of drives above the deck; the one that is pressed is seen in the picture. */
export class Drives {
  /**
   * @param {{shown: (drive: Drive) => void, add: (address: number, kind: string) => void, changed: () => void,
   *   removing: () => void, isUnsaved: (drive: Drive) => boolean}} hooks
   */
  constructor(hooks) {
    this.hooks = hooks;
    this.root = find('drives');
    /** @type {Drive[]} */
    this.all = [];
    /** @type {Drive | null} the one that is shown */
    this.shown = null;
    this.address = /** @type {HTMLInputElement} */ (make('input', {
      type: 'text',
      class: 'short mono',
      value: '191',
      maxlength: 3,
      size: 3,
      'aria-label': 'The address of another drive',
      spellcheck: 'false',
      style: 'width: 44px; padding: 2px 6px'
    }));
    this.kind = /** @type {HTMLSelectElement} */ (make('select', { 'aria-label': 'A drive more, with this volume' },
      ...[['', 'Add a drive…'], ['2311 203', 'new 2311'], ['2314 203', 'new 2314'], ['2311 5', 'new 2311, 5 cylinders'],
        ['2314 5', 'new 2314, 5 cylinders'], ['files', 'files…']]
        .map(([value, text]) => make('option', { value }, text))));
    this.kind.addEventListener('change', () => this.#add());
    this.draw();
  }

  /**
   * @param {Drive[]} all
   * @param {Drive | null} [shown]
   */
  set(all, shown = all[0] ?? null) {
    this.all = all;
    this.shown = shown;
    this.#propose();
    this.draw();
  }

  #propose() {
    let address = this.all.at(-1)?.address ?? 0x18F;
    do address += 1;
    while (this.all.some(it => it.address === address));
    this.address.value = hex(address, 3);
  }

  /**
   * Why no drive can have this address, or nothing.
   * @param {number} address
   * @param {string} text
   */
  #refusal(address, text) {
    if (!/^[0-6][0-9A-F]{2}$/i.test(text))
      return `A drive's address is three hexadecimal digits, of which the first is its channel, 0 to ${CHANNELS - 1}.`;
    if (this.all.some(it => it.address === address)) return `There is a drive ${hex(address, 3)} already.`;
    if (this.all.filter(it => it.address >> 8 === address >> 8).length >= MOST_ON_A_CHANNEL)
      return `A channel has at most ${MOST_ON_A_CHANNEL} drives.`;
    return '';
  }

  #add() {
    const kind = this.kind.value, text = this.address.value.trim(), address = parseInt(text, 16), refused = this.#refusal(address, text);
    this.kind.value = '';
    this.address.setCustomValidity(refused);
    if (refused) this.address.reportValidity();
    else this.hooks.add(address, kind);
  }

  /** @param {Drive} drive */
  #remove(drive) {
    this.hooks.removing();
    this.set(this.all.filter(it => it !== drive), this.shown === drive ? undefined : this.shown);
    this.hooks.changed();
  }

  draw() {
    const chips = this.all.map(drive => {
      const name = button('', () => {
        this.shown = drive;
        this.draw();
        this.hooks.shown(drive);
      }, {
        'aria-pressed': drive === this.shown,
        title: `${drive.volume.model}, ${drive.volume.cylinders} cylinders: seen in the picture when pressed`
      });
      const mark = this.hooks.isUnsaved(drive) && make('span', { class: 'unsaved', title: 'Changed, and not saved' }, ' •');
      name.append(make('b', {}, hex(drive.address, 3)), ` ${drive.volume.name}`, mark || '');
      const off = this.all.length > 1 &&
        button('×', () => this.#remove(drive), { class: 'off', 'aria-label': `Take drive ${hex(drive.address, 3)} off` });
      return make('span', { class: 'drive' }, name, off);
    });
    this.root.replaceChildren(...chips, this.address, this.kind);
  }
}

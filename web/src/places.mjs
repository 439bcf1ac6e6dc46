// @ts-check
// Places of the page: an address leads to one, and what is shown has one, which can be copied.

import { hashOf, packText, placeOf, unpackText } from './address.mjs';

/** @typedef {import('./drives.mjs').Drive} Drive */
/** @typedef {import('./drives.mjs').Drives} Drives */
/** @typedef {import('./deck_editor.mjs').Language} Language */
/** @typedef {import('./shapes.mjs').Example} Example */
/** @typedef {import('./shapes.mjs').Volume} Volume */
/** @typedef {{cylinder: number, head: number}} Track */

/**
 * @typedef {object} Hooks
 * @property {(text: string, isGood: boolean) => void} tell
 * @property {() => Promise<void>} begin shows the page as it begins
 * @property {() => boolean} hasGiven whether a pack is inside this page, which then begins with it
 * @property {(address: number, kind: string, signal: AbortSignal) => Promise<Volume>} pack a pack by its name in an address
 * @property {(drives: Drive[]) => void} take puts these drives in the place of all others
 * @property {() => Promise<Example[]>} examples
 * @property {(example: Example) => Promise<void>} run runs an example
 * @property {(text: string, language: Language) => void} write shows a text where it can be changed
 * @property {(track: number | null) => void} volume shows the volume, and a track of it
 * @property {() => {tab: string, track: number, written: import('./deck_view.mjs').Written}} shown the view, and what is chosen in it
 */

/** @type {import('./address.mjs').Pack} */
const GIVEN = { address: 0x190, kind: 'given' };
/** An address that is not one of the page's own elements. */
const WORD = /^#\w+=/;

/** The way from an address to its place, and back. */
export class Places {
  /** @type {AbortController | null} the latest arrival, which may be fetching */
  #going = null;
  /** @type {Map<string, number>} the volume that was opened last of each kind: a deck leaves another one */
  #opened = new Map();

  /**
   * @param {Drives} drives
   * @param {Hooks} hooks
   */
  constructor(drives, hooks) {
    this.drives = drives;
    this.hooks = hooks;
  }

  /**
   * Goes to the place that an address names. An Error says why there is none. Where another arrival, or the visitor, is faster, this one ends.
   * @param {string} hash
   */
  async arrive(hash) {
    this.stop();
    const { signal } = this.#going = new AbortController();
    try {
      const place = placeOf(hash);
      await this.#arrive(place, signal);
      if (!place && WORD.test(hash)) throw new Error(`${hash} names no place of this page.`);
    } catch (fault) {
      if (!signal.aborted) throw fault;
    }
  }

  /** Ends an arrival that is fetching: what is shown stays. */
  stop() {
    this.#going?.abort();
    this.hooks.tell('', true);
  }

  /**
   * @param {import('./address.mjs').Place | null} place
   * @param {AbortSignal} signal
   */
  async #arrive(place, signal) {
    const isEmpty = !this.drives.all.length;
    if (place?.named) return this.#arriveAt(place.named);
    if (place?.packs.length) await this.#openPacks(place.packs, signal);
    else if (isEmpty) await (this.hooks.hasGiven() ? this.#openPacks([GIVEN], signal) : this.hooks.begin());
    if (!place) return;
    if (place.packed) {
      const { text, language } = await unpackText(place.packed);
      this.hooks.write(text, language);
    } else this.hooks.volume(place.track && this.#numberOf(place.track));
  }

  /**
   * The number of a track of the volume that is shown.
   * @param {Track} track
   */
  #numberOf({ cylinder, head }) {
    const { volume } = /** @type {Drive} */ (this.drives.shown), track = cylinder * volume.heads + head;
    if (head >= volume.heads || !volume.tracks[track]) throw new Error(`The pack has no track ${cylinder}.${head}.`);
    return track;
  }

  /** @param {{kind: 'vector' | 'deck', name: string}} named */
  async #arriveAt({ kind, name }) {
    const example = (await this.hooks.examples()).find(it => (it.kind === 'vector') === (kind === 'vector') && it.name === name);
    if (example) return this.hooks.run(example);
    throw new Error(`This page has no ${kind} ${name}.`);
  }

  /**
   * Opens packs, those that are there unchanged excepted. They take the place of others once all are open.
   * @param {import('./address.mjs').Pack[]} packs
   * @param {AbortSignal} signal
   */
  async #openPacks(packs, signal) {
    /** @type {Drive[]} */
    const opened = [];
    const there = this.drives.all;
    for (const { address, kind } of packs) {
      const same = there.find(it => it.address === address && it.volume.number === this.#opened.get(kind));
      opened.push({ address, volume: same?.volume ?? await this.hooks.pack(address, kind, signal) });
      signal.throwIfAborted();
    }
    packs.forEach(({ kind }, at) => this.#opened.set(kind, opened[at].volume.number));
    const isThere = opened.every((it, at) => it.volume === this.drives.all[at]?.volume) && opened.length === this.drives.all.length;
    if (!isThere) this.hooks.take(opened);
  }

  /** The address of what is shown: of a deck its text, with the packs that an address can name. */
  async address() {
    const { tab, track, written: { example, language, text } } = this.hooks.shown(), { all, shown } = this.drives;
    const packs = all.flatMap(({ address, volume }) => (volume.origin ? [{ address, kind: volume.origin }] : []));
    if (tab !== 'deck') {
      const heads = shown?.volume.heads ?? 1;
      return hashOf({ packs, track: tab === 'volume' ? { cylinder: Math.floor(track / heads), head: track % heads } : null });
    }
    if (example && example.deck === text) return hashOf({ named: { kind: example.kind === 'vector' ? 'vector' : 'deck', name: example.name } });
    return hashOf({ packs, packed: await packText(text, language) });
  }

  /** Copies the address of what is shown; where the browser does not let it, the address is shown. */
  async copy() {
    const link = `${location.href.replace(/#.*$/, '')}${await this.address()}`;
    const own = this.drives.all.filter(it => !it.volume.origin).map(it => it.volume.name);
    const without = own.length ? ` A link can't have your own pack (${own.join(', ')}): whoever opens it needs the file.` : '';
    const [first, between] = await navigator.clipboard.writeText(link).then(() => ['The link is copied.', ''], () => [link, '\n']);
    this.hooks.tell(`${first}${between}${without}`, true);
  }
}

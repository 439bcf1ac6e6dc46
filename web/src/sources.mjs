// @ts-check
// Packs that no visitor picked: the example, one that is inside this page, a file of the page's own server, and new ones.

import { counted } from './dom.mjs';
import { unpacked } from './engine.mjs';
import { MOST_BYTES, tooLarge, unpackedFiles } from './files.mjs';
import { collected, decoded, TooLong } from './packed.mjs';

/** @typedef {import('./shapes.mjs').Volume} Volume */
/** @typedef {(text: string, done: number, whole: number | null) => void} Progress bytes that are there, of so many if that is known */

export const EXAMPLE = 'example.ckd';
const GIVEN = 'given-pack';

/**
 * The URL of a file of the page's own server. An Error says why an address names none.
 * @param {string} address as it is in the page's address: ./, ../ or / and a path
 * @param {string} page the page's URL
 * @returns {URL}
 */
export function ownFile(address, page) {
  const home = new URL(page), url = urlOf(address, page), isPath = /^\.{0,2}\//.test(address);
  if (!isPath || !url || url.protocol !== home.protocol || url.host !== home.host || url.username || url.password)
    throw new Error(`${address} is not opened: an address names a file of this page's own server, and begins with ./, ../ or /.`);
  if (home.protocol === 'file:') {
    throw new Error(`${address} is not opened: a page that was opened from a disk can't fetch a file. Press Open…, or drop the file here; ` +
      'or open this page from a server, as python3 -m http.server is one.');
  }
  return url;
}

/**
 * @param {string} address
 * @param {string} page
 */
function urlOf(address, page) {
  try {
    return new URL(address.replace(/#/g, '%23'), page);
  } catch {
    return null;
  }
}

/**
 * The last part of a URL's path, as a file is named.
 * @param {URL} url
 */
export function nameIn(url) {
  const last = url.pathname.split('/').at(-1) ?? '';
  try {
    return decodeURIComponent(last) || 'pack';
  } catch {
    return last;
  }
}

/**
 * Fetches a file of the page's own server. An Error says that it refuses, leads elsewhere, breaks off, or has too much.
 * @param {string} address
 * @param {{page: string, signal: AbortSignal, progress: Progress}} how
 * @returns {Promise<File>}
 */
export async function fetched(address, { page, signal, progress }) {
  const url = ownFile(address, page), name = nameIn(url), told = `Fetching ${name} …`;
  progress(told, 0, null);
  const answer = await fetch(url, { mode: 'same-origin', redirect: 'manual', signal }).catch(() => {
    throw new Error(`${address} could not be fetched: the server does not answer.`);
  });
  if (answer.type === 'opaqueredirect') throw new Error(`${address} could not be fetched: the server names another place for it, where this page does not go.`);
  if (!answer.ok) throw new Error(`${address} could not be fetched: the server answers ${answer.status} ${answer.statusText}`.trim());
  const length = Number(answer.headers.get('Content-Length')), whole = answer.headers.has('Content-Encoding') ? null : length || null;
  if (length > MOST_BYTES) {
    answer.body?.cancel().catch(() => {});
    throw tooLarge(name, `${counted(length)} bytes`);
  }
  const parts = answer.body ? await collected(answer.body, MOST_BYTES, done => progress(told, done, whole)).catch(fault => {
    throw fault instanceof TooLong ? tooLarge(name, fault.message) : new Error(`${address} could not be fetched whole: the connection broke off.`);
  }) : [];
  return new File(/** @type {BlobPart[]} */ (parts), name);
}

/** The pack that is inside this page, if one is: web/given_pack.py puts it there. */
function givenFile() {
  const block = document.getElementById(GIVEN);
  if (!block) return null;
  const name = block.dataset.name || 'pack.ckd';
  try {
    return new File([decoded(block.textContent?.trim() ?? '')], name);
  } catch {
    throw new Error(`${name}, the pack in this page, is damaged: the page may not have been copied whole.`);
  }
}

/** All that an address can name as a pack. */
export class Sources {
  /** @type {Promise<Volume> | null} the example pack, while it is open */
  #example = null;
  /** @type {Volume | null} the same, once it is */
  example = null;

  /**
   * @param {import('./shelf.mjs').Shelf} shelf
   * @param {Progress} progress
   */
  constructor(shelf, progress) {
    this.shelf = shelf;
    this.progress = progress;
  }

  /** Whether a pack is inside this page. */
  get hasGiven() { return document.getElementById(GIVEN) !== null; }

  /** The example pack, which is unpacked where it is not open. */
  async sample() {
    this.#example ??= unpacked(EXAMPLE).then(bytes => this.shelf.open(new Map([[EXAMPLE, bytes]]))).then(it => ({ ...it, origin: 'example' }));
    return this.example = await this.#example;
  }

  /** The example pack is no longer needed. */
  forgetSample() { this.#example = this.example = null; }

  /**
   * A pack by what an address calls it: example, given, a model and cylinders as 2314 5, or the address of a file.
   * @param {number} address that of its drive
   * @param {string} kind
   * @param {AbortSignal} signal ends a fetch
   * @returns {Promise<Volume>}
   */
  async pack(address, kind, signal) {
    if (kind === 'example') return this.sample();
    if (/^\d+ \d+$/.test(kind)) return this.shelf.formatAt(address, kind);
    const file = kind === 'given' ? givenFile() : await this.#fetched(kind, signal);
    if (!file) throw new Error('There is no pack inside this page.');
    return { ...await this.shelf.open(await unpackedFiles([file])), origin: kind };
  }

  /**
   * @param {string} address
   * @param {AbortSignal} signal
   */
  async #fetched(address, signal) {
    try {
      return await fetched(address, { page: location.href, signal, progress: this.progress });
    } finally {
      if (!signal.aborted) this.progress('', 0, null);
    }
  }
}

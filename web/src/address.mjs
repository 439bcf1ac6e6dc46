// @ts-check
// Places of the page by its address, after the #: words with values and & between them.
//
//   pack=example, pack=2314.5@191    the example pack, or new volumes of a model with so many cylinders, at 190 or where an address is said
//   pack=./a.ckd.gz, pack=given      a file of the page's own server, by a path that begins with ./, ../ or /; the pack that is in the page
//   track=45.7                       cylinder and head, of the pack that is named, or that is there
//   vector=NAME, deck=NAME           a vector of the conformance suite, or another deck to be picked
//   deck=~...                        a text that is packed into the address: its language, and base64url of its bytes under deflate

import { collected, through } from './packed.mjs';

/** @typedef {import('./deck_editor.mjs').Language} Language */
/** @typedef {{address: number, kind: string}} Pack `kind`: example, given, a model and its cylinders as 2314 5, or the address of a file */
/**
 * @typedef {object} Place
 * @property {Pack[]} packs
 * @property {{cylinder: number, head: number} | null} track
 * @property {{kind: 'vector' | 'deck', name: string} | null} named
 * @property {string} packed a text that is packed, or empty
 */

const FIRST_ADDRESS = 0x190;
const MOST_BYTES = 1_500_000;
const PACKED = '~';
const NAMED = new Set(['example', 'given']);
/** A path, or the address of another server, which is refused by name. */
const FILE = /^(\.{0,2}[/\\]|[a-z][a-z0-9+.-]*:)/i;

/**
 * The place that an address names; null where it names none that can be.
 * @param {string} hash
 * @returns {Place | null}
 */
export function placeOf(hash) {
  if (hash === '#example') return placeOf('#pack=example');
  const place = /** @type {Place} */ ({ packs: [], track: null, named: null, packed: '' });
  try {
    for (const part of hash.replace(/^#/, '').split('&')) {
      const [, word, value] = /^([a-z]+)=(.*)$/.exec(part) ?? [];
      if (!word || !take(place, word, value)) return null;
    }
  } catch {
    return null; // an escape that is none
  }
  return place;
}

/**
 * Takes a word into a place; false where it is none.
 * @param {Place} place
 * @param {string} word
 * @param {string} escaped
 */
function take(place, word, escaped) {
  const value = decodeURIComponent(escaped);
  if (word === 'pack') {
    const packs = escaped.split(',').map(packOf);
    place.packs = packs.flatMap(it => it ?? []);
    return packs.length === place.packs.length;
  }
  if (word === 'track') {
    const [, cylinder, head] = /^(\d{1,5})\.(\d{1,5})$/.exec(value) ?? [];
    place.track = cylinder ? { cylinder: Number(cylinder), head: Number(head) } : null;
    return Boolean(cylinder);
  } else if (word === 'deck' && value.startsWith(PACKED)) place.packed = value.slice(1);
  else if (word === 'deck' || word === 'vector') place.named = { kind: word, name: value };
  else return false;
  return true;
}

/**
 * A pack of an address, null where it is none. Which files may be opened, sources.mjs says.
 * @param {string} escaped with its own commas and signs @ escaped
 * @returns {Pack | null}
 */
function packOf(escaped) {
  const [, said, at] = /^(.*?)(?:@([0-6][0-9A-Fa-f]{2}))?$/.exec(escaped) ?? [], text = decodeURIComponent(said);
  const [, model, cylinders] = /^(2311|2314)\.(\d{1,3})$/.exec(text) ?? [], kind = model ? `${model} ${cylinders}` : text;
  return model || NAMED.has(kind) || FILE.test(kind) ? { address: at ? parseInt(at, 16) : FIRST_ADDRESS, kind } : null;
}

/**
 * A pack as an address has it.
 * @param {Pack} pack
 */
function written({ address, kind }) {
  const said = /^\d+ \d+$/.test(kind) ? kind.replace(' ', '.') : encodeURIComponent(kind).replace(/%2F/g, '/');
  return said + (address === FIRST_ADDRESS ? '' : `@${address.toString(16).toUpperCase()}`);
}

/**
 * The address of a place.
 * @param {Partial<Place>} place
 */
export function hashOf({ packs = [], track = null, named = null, packed = '' }) {
  const parts = [
    named && `${named.kind}=${encodeURIComponent(named.name)}`, packed && `deck=${PACKED}${packed}`,
    packs.length && `pack=${packs.map(written).join(',')}`, track && `track=${track.cylinder}.${track.head}`
  ];
  const said = parts.filter(Boolean).join('&');
  return said && `#${said}`;
}

/**
 * A text as it is in an address.
 * @param {string} text
 * @param {Language} language
 */
export async function packText(text, language) {
  const bytes = await new Blob(await collected(through(new Blob([text]), 'CompressionStream', 'deflate'), MOST_BYTES)).arrayBuffer();
  const digits = btoa(Array.from(new Uint8Array(bytes), it => String.fromCharCode(it)).join(''));
  return `${language[0]}${digits.replace(/\+/g, '-').replace(/\//g, '_').replace(/=+$/, '')}`;
}

/**
 * The text of an address. An Error says that it is damaged, or too long.
 * @param {string} packed
 * @returns {Promise<{text: string, language: Language}>}
 */
export async function unpackText(packed) {
  try {
    const bytes = Uint8Array.from(atob(packed.slice(1).replace(/-/g, '+').replace(/_/g, '/')), it => it.charCodeAt(0));
    const text = await new Blob(await collected(through(new Blob([bytes]), 'DecompressionStream', 'deflate'), MOST_BYTES)).text();
    return { text, language: packed[0] === 'w' ? 'words' : 'deck' };
  } catch {
    throw new Error('The deck in this address is damaged, or too long: it may not have been copied whole.');
  }
}

// @ts-check
// Where the members of a library stand, by its directory (System Control Blocks, GC28-6628, 'Partitioned Data Set Directory'): a block of
// 256 bytes has two bytes with the length that is used of it, and entries of a name in eight bytes, the relative address of the member's
// first record in three (track of the data set, record), and a byte whose last five bits count the half words that follow.

import { tracksOf } from './extents.mjs';

/** @typedef {import('./shapes.mjs').Volume} Volume */
/** @typedef {import('./shapes.mjs').DataSet} DataSet */
/** @typedef {{name: string, track: number, record: number}} Entry `name`: its eight bytes in hexadecimal */

const NAME = 8, ENTRY = 12;
const hexOf = (/** @type {Uint8Array} */ bytes) => [...bytes].map(it => it.toString(16).padStart(2, '0')).join('').toUpperCase();

/**
 * The entries of a directory block.
 * @param {Uint8Array} data
 * @returns {Entry[]}
 */
export function entriesOf(data) {
  const end = Math.min(data.length, (data[0] << 8) | data[1]), entries = [];
  for (let at = 2; at + ENTRY <= end;) {
    const name = hexOf(data.subarray(at, at + NAME));
    if (/^F+$/.test(name)) break;
    entries.push({ name, track: (data[at + 8] << 8) | data[at + 9], record: data[at + 10] });
    at += ENTRY + 2 * (data[at + 11] & 31);
  }
  return entries;
}

/**
 * The tracks on which a member stands: from its first record to the record without data that ends it.
 * @param {Volume} volume
 * @param {DataSet} set
 * @param {Entry} entry
 * @returns {Set<number>}
 */
export function tracksOfMember(volume, set, entry) {
  const tracks = tracksOf(set, volume.heads, volume.tracks.length), lit = new Set();
  for (let at = entry.track; at < tracks.length; at++) {
    const track = tracks[at], records = volume.tracks[track]?.records ?? [];
    const from = at === entry.track ? entry.record : 1;
    if (records.length > from) lit.add(track);
    if (records.slice(from).some(it => it.dataLength === 0)) break;
  }
  return lit;
}

/**
 * All entries of a library's directory, whose blocks have keys of eight bytes and stand before all members.
 * @param {Volume} volume
 * @param {DataSet} set
 * @param {(track: number) => Promise<{key: Uint8Array, data: Uint8Array}[]>} recordsOn
 * @returns {Promise<Entry[]>}
 */
export async function directoryOf(volume, set, recordsOn) {
  const entries = [];
  for (const track of tracksOf(set, volume.heads, volume.tracks.length)) {
    const records = await recordsOn(track), blocks = records.filter(it => it.key.length === NAME && it.data.length === 256);
    entries.push(...blocks.flatMap(it => entriesOf(it.data)));
    if (!blocks.length || blocks.length < records.length - 1) break;
  }
  return entries;
}

// @ts-check
// What the bytes of a record mean: its count, key and data; and by name the fields of the volume label, of the blocks of a table of contents,
// and of a library's directory (System Control Blocks, GC28-6628: 'Data Set Control Block', 'Standard Volume Label', 'Partitioned Data Set
// Directory').

import { LETTERS } from './ebcdic.mjs';

/** @typedef {'count' | 'key' | 'data'} Area */
/** @typedef {{area: Area, at: number, length: number, name: string, value: string}} Field `at`: its first byte in the area */
/** @typedef {{identifier: string, key: Uint8Array, data: Uint8Array}} RecordBytes */
/** @typedef {'label' | 'contents' | 'directory' | ''} Kind what the record may be, by where it stands */
/** @typedef {[number, number, string, (bytes: Uint8Array) => string]} Layout first byte, length, name, value */

const KEY = 44;
const NAME = 8, ENTRY = 12;

const number = (/** @type {Uint8Array} */ bytes) => String(bytes.reduce((sum, it) => 256 * sum + it, 0));
const text = (/** @type {Uint8Array} */ bytes) => Array.from(bytes, it => LETTERS[it]).join('').trimEnd() || 'blank';
const digits = (/** @type {Uint8Array} */ bytes) => Array.from(bytes, it => it.toString(16).toUpperCase().padStart(2, '0')).join('');
const pair = (/** @type {Uint8Array} */ bytes, /** @type {number} */ at) => bytes[at] << 8 | bytes[at + 1];
const place = (/** @type {Uint8Array} */ bytes) => `cylinder ${pair(bytes, 0)}, head ${pair(bytes, 2)}${bytes.length > 4 ? `, record ${bytes[4]}` : ''}`;
const date = (/** @type {Uint8Array} */ bytes) => (bytes.some(Boolean) ? `day ${pair(bytes, 1)} of ${1900 + bytes[0]}` : 'none');
const extent = (/** @type {Uint8Array} */ bytes) =>
  (bytes[0] ? `type ${digits(bytes.subarray(0, 1))}, ${place(bytes.subarray(2, 6))} to ${place(bytes.subarray(6))}` : 'none');
const organisation = (/** @type {Uint8Array} */ bytes) =>
  [[0x80, 'indexed sequential'], [0x40, 'sequential'], [0x20, 'direct'], [2, 'partitioned']].find(([bit]) => bytes[0] & Number(bit))?.[1].toString() ?? 'unknown';

/** @type {Layout[]} */
const LABEL = [
  [0, 3, 'Label identifier', text], [3, 1, 'Label number', text], [4, 6, 'Volume serial', text], [10, 1, 'Security', digits],
  [11, 5, 'Table of contents at', place], [41, 10, 'Owner', text]
];
/**
 * Of the key and data together.
 * @type {Record<number, Layout[]>}
 */
const BLOCKS = {
  0xF1: [
    [0, 44, 'Data set name', text], [44, 1, 'Format of the block', text], [45, 6, 'Data set serial', text], [51, 2, 'Volume sequence', number],
    [53, 3, 'Created', date], [56, 3, 'Expires', date], [59, 1, 'Extents', number], [60, 1, 'Bytes used of the last directory block', number],
    [62, 13, 'System code', text], [82, 2, 'Organisation', organisation], [84, 1, 'Record format', digits], [85, 1, 'Option codes', digits],
    [86, 2, 'Block length', number], [88, 2, 'Record length', number], [90, 1, 'Key length', number], [91, 2, 'Key position', number],
    [93, 1, 'Indicators', digits], [94, 4, 'Secondary allocation', digits], [98, 3, 'Last block written: track and record', digits],
    [101, 2, 'Bytes left on the last track', number], [105, 10, 'First extent', extent], [115, 10, 'Second extent', extent],
    [125, 10, 'Third extent', extent], [135, 5, 'Next block of this data set', place]
  ],
  0xF3: [
    ...Array.from({ length: 4 }, (_, it) => /** @type {Layout} */ ([4 + 10 * it, 10, `Extent ${it + 4}`, extent])),
    [44, 1, 'Format of the block', text],
    ...Array.from({ length: 9 }, (_, it) => /** @type {Layout} */ ([45 + 10 * it, 10, `Extent ${it + 8}`, extent])),
    [135, 5, 'Next block of this data set', place]
  ],
  0xF4: [
    [44, 1, 'Format of the block', text], [45, 5, 'Last block in use', place], [50, 2, 'Free blocks', number], [52, 4, 'Next alternate track', place],
    [56, 2, 'Alternate tracks', number], [58, 1, 'Indicators', digits], [59, 1, 'Extents', number], [62, 2, 'Cylinders', number],
    [64, 2, 'Tracks of a cylinder', number], [66, 2, 'Bytes of a track', number], [68, 3, 'Overheads', digits], [71, 1, 'Device flags', digits],
    [72, 2, 'Tolerance', number], [74, 1, 'Blocks of this table on a track', number], [75, 1, 'Directory blocks on a track', number],
    [105, 10, 'The table’s extent', extent]
  ],
};

/**
 * The fields of a layout in bytes.
 * @param {Layout[]} layout
 * @param {Uint8Array} bytes
 * @param {(at: number) => {area: Area, at: number}} where where a byte stands
 */
function fieldsIn(layout, bytes, where) {
  return layout.filter(([at, length]) => at + length <= bytes.length)
    .map(([at, length, name, value]) => ({ ...where(at), length, name, value: value(bytes.subarray(at, at + length)) }));
}

/**
 * The entries of a directory block.
 * @param {Uint8Array} data
 * @returns {Field[]}
 */
function directory(data) {
  const end = Math.min(data.length, pair(data, 0));
  /** @type {Field[]} */
  const fields = [{ area: 'data', at: 0, length: 2, name: 'Bytes used of the block', value: String(pair(data, 0)) }];
  for (let at = 2; at + ENTRY <= end;) {
    const name = data.subarray(at, at + NAME), rest = 2 * (data[at + 11] & 31), isLast = name.every(it => it === 0xFF);
    fields.push({ area: 'data', at, length: NAME, name: isLast ? 'End of the directory' : 'Member', value: isLast ? '' : text(name) });
    if (isLast) break;
    fields.push({ area: 'data', at: at + NAME, length: 3, name: 'Begins at', value: `track ${pair(data, at + NAME)}, record ${data[at + 10]}` },
      { area: 'data', at: at + 11, length: 1, name: 'Alias, and half words of user data', value: `${data[at + 11] & 0x80 ? 'an alias, ' : ''}${rest / 2}` });
    if (rest) fields.push({ area: 'data', at: at + ENTRY, length: Math.min(rest, end - at - ENTRY), name: 'User data', value: digits(data.subarray(at + ENTRY, Math.min(end, at + ENTRY + rest))) });
    at += ENTRY + rest;
  }
  return fields;
}

/**
 * All fields of a record, in the order of its bytes.
 * @param {RecordBytes} record
 * @param {Kind} kind
 * @returns {Field[]}
 */
export function fieldsOf({ identifier, key, data }, kind) {
  const id = Uint8Array.from(identifier.match(/../g) ?? [], it => parseInt(it, 16)), count = /** @type {Area} */ ('count');
  const counts = [
    { area: count, at: 0, length: 2, name: 'Cylinder', value: String(pair(id, 0)) }, { area: count, at: 2, length: 2, name: 'Head', value: String(pair(id, 2)) },
    { area: count, at: 4, length: 1, name: 'Record', value: String(id[4]) }, { area: count, at: 5, length: 1, name: 'Key length', value: String(key.length) },
    { area: count, at: 6, length: 2, name: 'Data length', value: data.length ? String(data.length) : '0: the end of a file' }
  ];
  return [...counts, ...inside({ key, data }, kind)];
}

/**
 * The fields of key and data: those of a kind, or both as a whole.
 * @param {{key: Uint8Array, data: Uint8Array}} record
 * @param {Kind} kind
 * @returns {Field[]}
 */
function inside({ key, data }, kind) {
  const whole = (/** @type {Area} */ area, /** @type {Uint8Array} */ bytes) => (bytes.length ? [{ area, at: 0, length: bytes.length, name: area === 'key' ? 'Key' : 'Data', value: '' }] : []);
  const layout = kind === 'contents' && key.length === KEY ? BLOCKS[data[0]] : undefined;
  if (layout) {
    const bytes = new Uint8Array([...key, ...data]);
    return fieldsIn(layout, bytes, at => (at < KEY ? { area: 'key', at } : { area: 'data', at: at - KEY }));
  }
  if (kind === 'label' && text(data.subarray(0, 4)) === 'VOL1') return [...whole('key', key), ...fieldsIn(LABEL, data, at => ({ area: 'data', at }))];
  if (kind === 'directory' && key.length === NAME && data.length === 256)
    return [{ area: 'key', at: 0, length: NAME, name: 'Last name of the block', value: key.every(it => it === 0xFF) ? 'the end' : text(key) }, ...directory(data)];
  return [...whole('key', key), ...whole('data', data)];
}

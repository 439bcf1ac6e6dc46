// @ts-check
// What the bytes of records mean: blocks written by hand after System Control Blocks, GC28-6628.

import assert from 'node:assert/strict';
import test from 'node:test';
import { fieldsOf } from '../src/fields.mjs';

/** @param {string} digits */
const bytes = digits => Uint8Array.from(digits.replace(/ /g, '').match(/../g) ?? [], it => parseInt(it, 16));

/**
 * A field by its name.
 * @param {import('../src/fields.mjs').Field[]} fields
 * @param {string} name
 */
const field = (fields, name) => fields.find(it => it.name === name);

test('a count area', () => {
  const fields = fieldsOf({ identifier: '0024000103', key: new Uint8Array(4), data: new Uint8Array(80) }, '');
  assert.deepEqual(fields.map(it => [it.area, it.at, it.length, it.name, it.value]), [
    ['count', 0, 2, 'Cylinder', '36'], ['count', 2, 2, 'Head', '1'], ['count', 4, 1, 'Record', '3'], ['count', 5, 1, 'Key length', '4'],
    ['count', 6, 2, 'Data length', '80'], ['key', 0, 4, 'Key', ''], ['data', 0, 80, 'Data', '']
  ]);
});

test('a volume label', () => {
  const data = new Uint8Array(80).fill(0x40);
  data.set(bytes('E5D6D3F1 E2C9E7F0F0F1 40 0000000101'));
  data.set(bytes('E2C3D9C9D7E3'), 41);
  const fields = fieldsOf({ identifier: '0000000003', key: bytes('E5D6D3F1'), data }, 'label');
  assert.deepEqual([field(fields, 'Volume serial')?.value, field(fields, 'Volume serial')?.at, field(fields, 'Owner')?.value], ['SIX001', 4, 'SCRIPT']);
  assert.equal(field(fields, 'Table of contents at')?.value, 'cylinder 0, head 1, record 1');
});

test('a block of a data set, of format 1, over key and data', () => {
  const key = new Uint8Array(44).fill(0x40), data = new Uint8Array(96);
  key.set(bytes('C14BC2'));
  data.set(bytes('F1 E2C9E7F0F0F1 0001 4B0020'));
  data.set(bytes('4000'), 82 - 44);
  data.set(bytes('0320 0050'), 86 - 44);
  data.set(bytes('0100 00020000 00030013'), 105 - 44);
  const fields = fieldsOf({ identifier: '0000000103', key, data }, 'contents');
  assert.deepEqual(['Data set name', 'Created', 'Organisation', 'Block length', 'Record length', 'First extent', 'Second extent'].map(it => field(fields, it)?.value),
    ['A.B', 'day 32 of 1975', 'sequential', '800', '80', 'type 01, cylinder 2, head 0 to cylinder 3, head 19', 'none']);
  assert.deepEqual([field(fields, 'Data set name')?.area, field(fields, 'First extent')?.area, field(fields, 'First extent')?.at], ['key', 'data', 61]);
});

test('a directory block, with user data, and one that is cut', () => {
  const data = new Uint8Array(256);
  data.set(bytes('0024 D6D7C5D54040 4040 000102 02 AABBCCDD C3D3D6E2C5404040 000305 80 FFFFFFFFFFFFFFFF'));
  const fields = fieldsOf({ identifier: '0001000001', key: new Uint8Array(8).fill(0xFF), data }, 'directory');
  assert.deepEqual(fields.slice(5).map(it => [it.at, it.length, it.name, it.value]), [
    [0, 8, 'Last name of the block', 'the end'], [0, 2, 'Bytes used of the block', '36'], [2, 8, 'Member', 'OPEN'], [10, 3, 'Begins at', 'track 1, record 2'],
    [13, 1, 'Alias, and half words of user data', '2'], [14, 4, 'User data', 'AABBCCDD'], [18, 8, 'Member', 'CLOSE'], [26, 3, 'Begins at', 'track 3, record 5'],
    [29, 1, 'Alias, and half words of user data', 'an alias, 0']
  ]);
  data.set([0, 20], 0);
  assert.equal(fieldsOf({ identifier: '0001000001', key: new Uint8Array(8), data }, 'directory').length, 5 + 6);
});

test('bytes of no such kind, and blocks that are too short, have key and data alone', () => {
  const short = { identifier: '0000000101', key: new Uint8Array(44), data: bytes('F1') };
  assert.deepEqual(fieldsOf(short, 'contents').slice(5).map(it => it.name), ['Data set name', 'Format of the block']);
  assert.deepEqual(fieldsOf({ identifier: '0000000003', key: new Uint8Array(0), data: bytes('C1') }, 'label').slice(5).map(it => it.name), ['Data']);
});

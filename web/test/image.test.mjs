// @ts-check
// What is held of packs: images with tracks changed, and how many bytes they hold together.

import assert from 'node:assert/strict';
import test from 'node:test';
import { Changed, imageAfter, imageFrom, weightOf, Whole } from '../src/image.mjs';

const HEADER = 512, SLOT = 1024, SLOTS = 20;

/** An image of twenty slots: the length of a slot stands in four bytes at 12, the low one first. */
function image() {
  const bytes = new Uint8Array(HEADER + SLOTS * SLOT);
  bytes.set([0, 4, 0, 0], 12);
  bytes.fill(0xC1, HEADER);
  return bytes;
}

/**
 * The same with a byte changed.
 * @param {Uint8Array} bytes
 * @param {number} at
 * @param {number} value
 */
function changed(bytes, at, value) {
  const other = bytes.slice();
  other[at] = value;
  return other;
}

test('an image that a deck changed holds the tracks that differ, and reads as the changed one', () => {
  const before = image(), now = changed(changed(before, HEADER + 3 * SLOT + 5, 1), HEADER + 7 * SLOT, 2);
  const after = imageAfter(new Whole(before), now);
  assert.ok(after instanceof Changed);
  assert.deepEqual([...after.parts.keys()], [HEADER + 3 * SLOT, HEADER + 7 * SLOT]);
  assert.deepEqual(after.all(), now);
  assert.deepEqual(after.read(HEADER + 3 * SLOT + 4, HEADER + 3 * SLOT + 7), new Uint8Array([0xC1, 1, 0xC1]));
  assert.deepEqual(after.read(HEADER + 7 * SLOT - 1, HEADER + 7 * SLOT + 2), new Uint8Array([0xC1, 2, 0xC1]));
  assert.equal(after.read(now.length - 1, now.length + 100).length, 1);
  assert.equal(before[HEADER + 7 * SLOT], 0xC1, 'the former one stays');
});

test('a change of a change holds both, and a change that is taken back holds nothing wrong', () => {
  const before = image(), one = changed(before, HEADER, 1), two = changed(one, HEADER + SLOT, 2);
  const first = imageAfter(new Whole(before), one), second = imageAfter(first, two);
  assert.deepEqual([first.all(), second.all()], [one, two]);
  assert.deepEqual(imageAfter(second, before).all(), before);
  assert.equal(weightOf([first, second]), before.length + 2 * SLOT, 'what they have in common counts once');
  assert.equal(weightOf([second], [first]), SLOT);
});

test('where most of it changed, or its length, it is held whole', () => {
  const before = image(), now = image();
  now.fill(0, HEADER);
  assert.ok(imageAfter(new Whole(before), now) instanceof Whole);
  assert.ok(imageAfter(new Whole(before), now.slice(0, -SLOT)) instanceof Whole);
  assert.equal(imageFrom(before, 'a').all(), before, 'bytes in memory are not copied');
});

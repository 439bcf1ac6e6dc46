// @ts-check
// Which tracks data sets have: by the program's answers, in the picture's list of owners, in the order of a data set, and where its name
// stands. The volume is that of the setup `shared` of rows/data/files/setups.rows: a 2311 on which two data sets share cylinders 1 and 2.

import assert from 'node:assert/strict';
import test from 'node:test';
import { tracksOfMember } from '../src/directory.mjs';
import { tracksOf, tracksOfExtent } from '../src/extents.mjs';
import { layOut } from '../src/picture.mjs';
import { largestRun } from '../src/picture_tracks.mjs';
import { volumeOf } from '../src/shapes.mjs';
import { Volumes } from '../src/volume.mjs';

const CYLINDERS = 4, HEADS = 10, DATA = 1, SHARED = 128;
const LEFT = [10, 11, 12, 13, 20, 21, 22, 23], RIGHT = [14, 15, 16, 17, 18, 19, 24, 25, 26, 27, 28, 29];

/**
 * Numbers from one to another.
 * @param {number} first
 * @param {number} last
 */
const upTo = (first, last) => Array.from({ length: last - first + 1 }, (_, at) => first + at);

/**
 * The volume on which data sets have these extents, as the page has it when the program tells these types of them, or none.
 * @param {[string, number[][], number[] | undefined][]} sets
 */
function looked(...sets) {
  const told = {
    list: [{ model: 2311, cylinders: CYLINDERS, heads: HEADS, slot_size: 4096 }, ...upTo(0, CYLINDERS * HEADS - 1).map(track =>
      ({ cylinder: Math.floor(track / HEADS), head: track % HEADS, home_address: '', used: 100, records: [{}, {}, { data_length: 80 }] }))],
    check: [{ errors: 0, warnings: 0, notes: 0 }],
    vtoc: [
      { serial: 'SHARED', owner: '' },
      ...sets.map(([name, extents, extent_types]) => ({ name, organisation: 'PS', extents, extent_types })),
    ],
  };
  const lines = (/** @type {string[]} */ [command]) =>
    /** @type {any} */ (told)[command].map((/** @type {object} */ it) => `${JSON.stringify(it)}\n`).join('');
  const run = (/** @type {string[]} */ words) =>
    ({ status: 0, output: new TextEncoder().encode(lines(words)), errors: new Uint8Array(), files: new Map() });
  const volumes = new Volumes(/** @type {any} */ ({ run }));
  return volumeOf(1, 'pack.ckd', 0, volumes.look(new Map([['pack.ckd', new Uint8Array()]])));
}

/**
 * The tracks that a data set owns in the picture.
 * @param {import('../src/shapes.mjs').Volume} volume
 * @param {number} set
 */
function owned(volume, set) { return upTo(0, CYLINDERS * HEADS - 1).filter(track => volume.owner[track] === set); }

test('data sets that share cylinders have their own heads of each', () => {
  const volume = looked(['LEFT', [[1, 0, 2, 3]], [SHARED]], ['RIGHT', [[1, 4, 2, 9]], [SHARED]]), [left, right] = volume.sets;
  assert.deepEqual([owned(volume, 0), owned(volume, 1)], [LEFT, RIGHT]);
  assert.deepEqual([tracksOf(left, HEADS, Infinity), tracksOf(right, HEADS, Infinity)], [LEFT, RIGHT]);
  assert.equal(owned(volume, -1).length, CYLINDERS * HEADS - LEFT.length - RIGHT.length);
});

test('data sets of a program that tells no types are drawn straight through', () => {
  const volume = looked(['LEFT', [[1, 0, 2, 3]], undefined], ['RIGHT', [[1, 4, 2, 9]], undefined]), [left, right] = volume.sets;
  assert.deepEqual([owned(volume, 0), owned(volume, 1)], [upTo(10, 23), upTo(24, 29)]);
  assert.deepEqual([tracksOf(left, HEADS, Infinity), tracksOf(right, HEADS, Infinity)], [upTo(10, 23), upTo(14, 29)]);
});

test('each extent has its own type, and their tracks follow each other in the data set', () => {
  const volume = looked(['BOTH', [[3, 2, 3, 4], [1, 4, 2, 5], [0, 8, 1, 1]], [DATA, SHARED, DATA]]), [set] = volume.sets;
  const tracks = [32, 33, 34, 14, 15, 24, 25, 8, 9, 10, 11];
  assert.deepEqual(tracksOf(set, HEADS, Infinity), tracks);
  assert.deepEqual(owned(volume, 0), [...tracks].sort((a, b) => a - b));
});

test('a member stands on the tracks of a shared extent that its directory tells', () => {
  const volume = looked(['LIB', [[1, 4, 2, 5]], [SHARED]]), entry = { name: '', track: 1, record: 1 };
  volume.tracks[24].records[2].dataLength = 0;
  assert.deepEqual([...tracksOfMember(volume, volume.sets[0], entry)], [15, 24]);
});

test('extents that leave the volume, or run backwards, own what the volume has of them', () => {
  assert.deepEqual(tracksOfExtent([1, 2, 2, 65535], SHARED, 4), [6, 7, 10, 11]);
  assert.deepEqual(tracksOfExtent([1, 3, 2, 2], SHARED, 4), []);
  assert.deepEqual(tracksOfExtent([2, 0, 1, 3], SHARED, 4), []);
  assert.deepEqual(tracksOfExtent([2, 0, 1, 3], DATA, 4), []);
  assert.deepEqual(tracksOfExtent([1, 2, 65535, 3], SHARED, 4, 12), [6, 7, 10, 11]);
  assert.deepEqual(tracksOfExtent([1, 2, 65535, 3], DATA, 4, 12), upTo(6, 11));
  assert.deepEqual(owned(looked(['WIDE', [[2, 8, 65535, 65535]], [SHARED]]), 0), [28, 29, 38, 39]);
});

test('the name of a data set stands on its own heads', () => {
  const volume = looked(['LEFT', [[1, 0, 2, 3]], [SHARED]], ['RIGHT', [[1, 4, 2, 9]], [SHARED]], ['WHOLE', [[3, 2, 3, 4]], [DATA]]);
  const layout = layOut(800, CYLINDERS, HEADS), { left, top, cell, tall } = layout;
  const [one, other, whole] = volume.sets.map(set => largestRun(volume, layout, set));
  assert.deepEqual(one, { x: left + cell, y: top, w: 2 * cell, h: 4 * tall, track: 10 });
  assert.deepEqual(other, { x: left + cell, y: top + 4 * tall, w: 2 * cell, h: 6 * tall, track: 14 });
  assert.deepEqual(whole, { x: left + 3 * cell, y: top, w: cell, h: HEADS * tall, track: 32 });
});

test('sixteen extents of a hostile label that name 65,536 cylinders each are bounded by the volume', () => {
  const extents = Array.from({ length: 16 }, () => /** @type {[number, number, number, number]} */ ([0, 0, 65535, 65535]));
  for (const type of [1, 0x80]) {
    const [set] = looked(['HOSTILE', extents, extents.map(() => type)]).sets, start = performance.now();
    assert.equal(tracksOf(set, 20, 4060).length, 16 * 4060);
    assert.ok(performance.now() - start < 1000);
  }
});

// @ts-check
// memory.c and the functions on numbers of 128 bits in the module, as clang, lld and binaryen have made them: out/parts.wasm is these alone.

import assert from 'node:assert/strict';
import test from 'node:test';
import { moduleOf } from './modules.mjs';

const module = moduleOf('parts'), ROOM = 64n, WHOLE = 1n << 128n;

/** An instance of its own, with the bytes of its memory. */
function begin() {
  const parts = /** @type {any} */ (new WebAssembly.Instance(module, {}).exports);
  return { parts, bytes: () => new Uint8Array(parts.memory.buffer), view: () => new DataView(parts.memory.buffer) };
}

/**
 * Numbers by chance, the same each time.
 * @param {number} seed
 */
function chances(seed) {
  let state = BigInt(seed);
  return () => {
    state = BigInt.asUintN(64, state * 6364136223846793005n + 1442695040888963407n);
    return BigInt.asUintN(64, state ^ (state >> 29n));
  };
}

test('blocks are apart, keep their bytes, and are found again when all are free', () => {
  const { parts, bytes } = begin(), chance = chances(7);
  /** @type {{ at: number, length: number, fill: number }[]} */
  const kept = [];
  const isWhole = (/** @type {{ at: number, length: number, fill: number }} */ { at, length, fill }) =>
    bytes().subarray(at, at + length).every(byte => byte === fill);
  for (let round = 0; round < 6000; round++) {
    const place = Number(chance() % 100n), length = Number(chance() % 3000n), fill = 1 + round % 255, old = kept[place];
    if (!old) {
      const at = Number(parts.malloc(BigInt(length)));
      assert.ok(at > 0 && at % 16 === 0 && at + length <= bytes().length);
      assert.ok(!kept.some(it => it && it.at < at + length && at < it.at + it.length), 'memory is given twice');
      bytes().fill(fill, at, at + length);
      kept[place] = { at, length, fill };
    } else {
      assert.ok(isWhole(old), 'a block has other bytes than were put there');
      parts.free(BigInt(old.at));
      delete kept[place];
    }
  }
  kept.forEach(it => parts.free(BigInt(it.at)));
  const before = bytes().length, whole = Number(parts.malloc(BigInt(before / 2)));
  assert.ok(whole > 0 && bytes().length === before, 'what was freed is one block again');
});

test('memory that is not there is refused, and the next call works', () => {
  const { parts, bytes, view } = begin(), at = parts.malloc(ROOM);
  // 10 GB: memory.grow answers -1, of which the lowering to 32 bits leaves 32 bits
  assert.equal(parts.malloc(10n << 30n), 0n);
  assert.equal(parts.malloc((1n << 64n) - 1n), 0n);
  assert.equal(parts.malloc(4n << 30n), 0n);
  parts.rattle_alloc(at, 10n << 30n, 8n);
  assert.equal(view().getBigInt64(Number(at), true), 0n);
  assert.notEqual(view().getBigUint64(Number(at) + 8, true), 0n);
  parts.rattle_alloc(at, 0n, 48n);
  assert.equal(view().getBigInt64(Number(at), true), 1n);
  const block = view().getBigUint64(Number(at) + 8, true);
  bytes()[Number(block) + 47] = 9;
  parts.rattle_realloc(at, block, 48n, 70000n, 8n);
  assert.equal(view().getBigInt64(Number(at), true), 1n);
  assert.equal(bytes()[Number(view().getBigUint64(Number(at) + 8, true)) + 47], 9);
  assert.ok(parts.malloc(100n) > 0n);
});

test('bytes are compared and counted', () => {
  const { parts, bytes } = begin(), one = parts.malloc(ROOM), other = parts.malloc(ROOM);
  bytes().set([1, 2, 255, 0], Number(one));
  bytes().set([1, 2, 3, 0], Number(other));
  assert.ok(parts.memcmp(one, other, 3n) > 0 && parts.memcmp(other, one, 3n) < 0);
  assert.equal(parts.memcmp(one, other, 2n), 0);
  assert.equal(parts.strlen(one), 3n);
});

test('products and shifts of 128 bits', () => {
  const { parts, view } = begin(), at = parts.malloc(ROOM), chance = chances(360);
  const halves = (/** @type {bigint} */ it) => [BigInt.asUintN(64, it), BigInt.asUintN(64, it >> 64n)];
  const answered = () => view().getBigUint64(Number(at) + 8, true) << 64n | view().getBigUint64(Number(at), true);
  const edges = [0n, 1n, 0xFFFFFFFFn, 1n << 32n, (1n << 64n) - 1n, 1n << 64n, 1n << 127n, WHOLE - 1n];
  const numbers = [...edges, ...Array.from({ length: 40 }, () => chance() << 64n | chance())];
  for (const one of numbers) {
    for (const other of numbers) {
      parts.__multi3(at, ...halves(one), ...halves(other));
      assert.equal(answered(), one * other % WHOLE);
    }
    for (let by = 0; by < 128; by++) {
      parts.__ashlti3(at, ...halves(one), by);
      assert.equal(answered(), (one << BigInt(by)) % WHOLE);
      parts.__lshrti3(at, ...halves(one), by);
      assert.equal(answered(), one >> BigInt(by));
    }
  }
});

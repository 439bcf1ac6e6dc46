// @ts-check
// Addresses of places of the page, both ways.

import assert from 'node:assert/strict';
import test from 'node:test';
import { hashOf, packText, placeOf, unpackText } from '../src/address.mjs';

const NOTHING = { packs: [], track: null, named: null, packed: '' };

test('an address names packs, a track, a vector or a deck', () => {
  assert.deepEqual(placeOf('#vector=seek-head'), { ...NOTHING, named: { kind: 'vector', name: 'seek-head' } });
  assert.deepEqual(placeOf('#deck=A%20read'), { ...NOTHING, named: { kind: 'deck', name: 'A read' } });
  assert.deepEqual(placeOf('#pack=example&track=45.7'), { ...NOTHING, packs: [{ address: 0x190, kind: 'example' }], track: { cylinder: 45, head: 7 } });
  const packs = [{ address: 0x190, kind: '2311 203' }, { address: 0x2A1, kind: '2314 5' }];
  assert.deepEqual(placeOf('#pack=2311.203,2314.5@2A1&deck=~dabc'), { ...NOTHING, packs, packed: 'dabc' });
  assert.deepEqual(placeOf('#example'), placeOf('#pack=example'));
});

test('an address names files, each at a drive, by paths in which any character may be escaped', () => {
  const kinds = (/** @type {string} */ hash) => placeOf(hash)?.packs.map(it => [it.kind, it.address.toString(16)]);
  assert.deepEqual(kinds('#pack=./a.ckd.gz'), [['./a.ckd.gz', '190']]);
  assert.deepEqual(kinds('#pack=../b/c%20d.ckd@2A1,/e.ckd,given&track=1.2'), [['../b/c d.ckd', '2a1'], ['/e.ckd', '190'], ['given', '190']]);
  assert.deepEqual(kinds('#pack=.%2Fa%2Cb%40191.ckd%40191@191'), [['./a,b@191.ckd@191', '191']]);
  assert.deepEqual(kinds('#pack=./a%2523.ckd'), [['./a%23.ckd', '190']]);
  // these are refused by name, so they are packs of a place
  assert.deepEqual(kinds('#pack=https://other.example/a.ckd,//other.example/b,%5C%5Cother/c'),
    [['https://other.example/a.ckd', '190'], ['//other.example/b', '190'], ['\\\\other/c', '190']]);
});

test('what names no place is none', () => {
  for (const it of ['', '#', '#main', '#pack=', '#pack=2315.5', '#pack=a.ckd', '#pack=example,2315.5', '#pack=./%E0%A4%A', '#track=1', '#track=a.b', '#vector', '#deck=%E0%A4%A', '#what=1', '#pack=example&x=1'])
    assert.equal(placeOf(it), null, it);
});

test('a place is written as its address', () => {
  for (const it of ['#vector=seek-head', '#deck=A%20read', '#pack=example&track=45.7', '#deck=~dabc&pack=2311.203,2314.5@2A1', '#track=0.0',
    '#pack=./a%20b%2Cc%40d%26e%23f.ckd@191,/g.ckd', '#pack=given&track=1.2', '#pack=../%25.ckd'])
    assert.equal(hashOf(placeOf(it) ?? {}), it);
  assert.equal(hashOf({}), '');
});

test('a text is packed into an address and comes back, and what is damaged is refused', async () => {
  const text = '* Ä remark: ¬ € 𝄞\nSTORE 400 0700050040000006\n'.repeat(40), packed = await packText(text, 'deck');
  assert.match(packed, /^d[\w-]+$/);
  assert.ok(packed.length < 300);
  assert.deepEqual(await unpackText(packed), { text, language: 'deck' });
  assert.deepEqual(await unpackText(await packText('', 'words')), { text: '', language: 'words' });
  for (const it of ['', 'd', 'd!!', packed.slice(0, 40), await packText('x'.repeat(1_500_000), 'deck').then(it => it.slice(0, -9))])
    await assert.rejects(unpackText(it), /damaged, or too long/, it.slice(0, 50));
});

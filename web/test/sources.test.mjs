// @ts-check
// Which files an address may name, what they are called, and base64 in slices.

import assert from 'node:assert/strict';
import test from 'node:test';
import { decoded } from '../src/packed.mjs';
import { nameIn, ownFile } from '../src/sources.mjs';

const PAGE = 'https://packs.example:8443/a/try/index.html?x#pack=./b';

test('a file of the page\'s own server', () => {
  for (const [address, url, name] of [
    ['./p.ckd', 'https://packs.example:8443/a/try/p.ckd', 'p.ckd'],
    ['../shared/p.ckd.gz', 'https://packs.example:8443/a/shared/p.ckd.gz', 'p.ckd.gz'],
    ['/p?v=1', 'https://packs.example:8443/p?v=1', 'p'],
    ['../../../../p', 'https://packs.example:8443/p', 'p'],
    ['./a b#c.ckd', 'https://packs.example:8443/a/try/a%20b%23c.ckd', 'a b#c.ckd'],
    ['./%23%E0.ckd', 'https://packs.example:8443/a/try/%23%E0.ckd', '%23%E0.ckd'],
    ['./', 'https://packs.example:8443/a/try/', 'pack'],
    ['//packs.example:8443/p', 'https://packs.example:8443/p', 'p']
  ]) {
    assert.equal(ownFile(address, PAGE).href, url);
    assert.equal(nameIn(ownFile(address, PAGE)), name);
  }
});

test('a file of another server is refused by name, and so is what is no path', () => {
  for (const it of ['https://packs.example/p', 'https://packs.example:8443/p', '//other.example/p', '/\\other.example/p', '/\t/other.example/p', './\n/../..//p\\',
    '//packs.example/p', '//me:you@packs.example:8443/p', '//[/p', 'data:,x', 'javascript:alert(1)', 'blob:x', 'p.ckd', '\\\\other\\p', '']) {
    if (it.startsWith('./')) assert.equal(ownFile(it, PAGE).host, 'packs.example:8443');
    else assert.throws(() => ownFile(it, PAGE), fault => fault instanceof Error && fault.message.startsWith(`${it} is not opened: an address names a file of this page's own`), it);
  }
});

test('a page from a disk fetches nothing, and says what to do', () => {
  for (const it of ['./p.ckd', '../p.ckd', '/p.ckd']) assert.throws(() => ownFile(it, 'file:///home/me/page.html'), /opened from a disk can't fetch .*Press Open…, or drop the file here/);
  assert.throws(() => ownFile('//server/p.ckd', 'file:///home/me/page.html'), /this page's own server/);
});

test('base64 is decoded in slices, and what is none is refused', async () => {
  const bytes = Uint8Array.from({ length: (1 << 20) + 7 }, (_, at) => at * at);
  assert.deepEqual(new Uint8Array(await decoded(Buffer.from(bytes).toString('base64')).arrayBuffer()), bytes);
  assert.equal(decoded('').size, 0);
  assert.throws(() => decoded('AA!A'));
});

// @ts-check
// What is kept for a visitor: drafts of decks, and the steps of Undo.

import assert from 'node:assert/strict';
import test from 'node:test';
import { Drafts, titleOf } from '../src/drafts.mjs';
import { History } from '../src/history.mjs';

/** A browser's storage, which takes so many characters. */
class Storage {
  room = 1_000_000;
  text = /** @type {string | null} */ (null);
  getItem() { return this.text; }
  /**
   * @param {string} _
   * @param {string} text
   */
  setItem(_, text) {
    if (text.length > this.room) throw new Error('QuotaExceededError');
    this.text = text;
  }
}

test('a draft is kept as it is written, and another one beside it', () => {
  const storage = new Storage(), drafts = new Drafts(() => storage, () => 1000);
  drafts.keep('SIO', 'deck');
  drafts.keep('SIO 190', 'deck');
  drafts.current = null;
  drafts.keep('* Mine\n SEEK', 'words');
  const seen = new Drafts(() => storage).all().map(({ id: _, ...it }) => it);
  assert.deepEqual(seen, [{ text: '* Mine\n SEEK', language: 'words', at: 1000 }, { text: 'SIO 190', language: 'deck', at: 1000 }]);
  assert.deepEqual(seen.map(it => titleOf(it.text)), ['Mine', 'SIO 190']);
  drafts.remove(drafts.all()[1].id);
  assert.deepEqual(drafts.all().map(it => it.text), ['* Mine\n SEEK']);
});

test('where the browser stores nothing, that is known; what is stored wrong is passed over', () => {
  const none = new Drafts(() => { throw new Error('SecurityError'); });
  none.keep('SIO 190', 'deck');
  assert.deepEqual([none.isKept, none.all()], [false, []]);
  const storage = new Storage(), drafts = new Drafts(() => storage);
  storage.text = '[null,{"text":5},{"id":1,"text":"RUN","language":"deck","at":2}]';
  assert.deepEqual(drafts.all().map(it => it.text), ['RUN']);
  storage.text = 'no json';
  assert.deepEqual(drafts.all(), []);
  storage.room = 10;
  drafts.keep('a text that has no room', 'deck');
  assert.equal(drafts.isKept, false);
});

test('many drafts: twenty stay, and those that have room', () => {
  const storage = new Storage(), drafts = new Drafts(() => storage, () => 0);
  for (let at = 0; at < 30; at++) {
    drafts.current = null;
    drafts.keep(`deck ${at}`, 'deck');
  }
  assert.deepEqual([drafts.all().length, drafts.all()[0].text, new Set(drafts.all().map(it => it.id)).size], [20, 'deck 29', 20]);
  drafts.current = null;
  drafts.keep('x'.repeat(499_990), 'deck');
  assert.equal(drafts.all().length, 2, 'the oldest ones have no room any more');
});

test('Undo is bounded by steps and by bytes, the oldest go first, and those that go are told', async () => {
  const past = (/** @type {number} */ number) =>
    ({ drives: [{ address: 0x190, number, name: `${number}.ckd`, bytes: 1 }], shown: 0, isReplaced: true, written: null });
  /** @type {number[]} */
  const lost = [];
  let each = 0;
  const history = new History(async kept => kept.length * each, it => lost.push(it.drives[0].number));
  for (let number = 0; number < 14; number++) history.add(past(number));
  assert.deepEqual([lost, history.past.length], [[0, 1], 12]);
  each = 30_000_000;
  await history.trim([]);
  assert.deepEqual(history.numbers, [10, 11, 12, 13], 'four of 30 MB have room in 134,217,728 bytes');
  assert.equal(history.take()?.drives[0].number, 13);
});

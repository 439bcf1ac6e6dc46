// @ts-check
// Channel programs in words: both ways, as the page asks it, and where a fault is.

import assert from 'node:assert/strict';
import test from 'node:test';
import { Program } from '../src/program.mjs';
import { server } from '../src/worker.mjs';
import { assemble, disassemble } from '../src/words.mjs';
import { examples, moduleBytes, moduleOf } from './modules.mjs';

const program = new Program(moduleOf('program'));

// The program of docs/ASSEMBLER.md, and its deck, put together by hand: Seek, Search ID Equal, Transfer In Channel and Read Data at 400.
const WORDS = `         ORG   X'48'
         DC    A(START)             the channel address word
         ORG   X'400'
START    SEEK  CYLHEAD,CC,6
FIND     SIDEQ RECORD,CC,5
         TIC   FIND
         RD    X'600',,80
CYLHEAD  DC    X'000000000000'
RECORD   DC    X'0000000002'
         SIO   190
`;
const DECK = `STORE 000048 00000400
STORE 000400 0700042040000006 3100042640000005 0800040800000000 0600060000000050 000000000000 0000000002
SIO   190
`;

test('a text is assembled to its deck, and a deck is put into words that are assembled to it again', () => {
  assert.deepEqual(assemble(program, WORDS), { text: DECK, fault: null });
  const back = disassemble(program, DECK);
  assert.equal(back.fault, null);
  assert.match(back.text, /^L000400 +SEEK +L000420,CC,6/m);
  assert.match(back.text, /^ +TIC +L000408/m);
  const bytes = (/** @type {string} */ deck) => deck.replace(/[ \n]/g, '');
  assert.equal(bytes(assemble(program, back.text).text), bytes(DECK));
});

test('a fault has its line and its column, in characters', () => {
  assert.deepEqual(assemble(program, " ORG X'400'\n SEAK 0,,6\n").fault?.number, 1);
  assert.deepEqual(assemble(program, " ORG X'400'\n SEAK 0,,6\n").fault?.column, 1);
  const far = assemble(program, "* d\u00E9j\u00E0\nA\u00E9 NOP 0,,1\n").fault;
  assert.deepEqual([far?.number, far?.column], [1, 0]);
  assert.match(far?.text ?? '', /^a label has one to eight letters/);
  const behind = assemble(program, " DC C'\u00E9'\n").fault;
  assert.deepEqual([behind?.number, behind?.column], [0, 4]);
  const deck = disassemble(program, 'SIO 190\nCHANNEL 2\n').fault;
  assert.deepEqual(deck, { number: 1, column: null, text: 'unknown event' });
});

test('a file that a text loads is not at hand on the page, and is told at its place', () => {
  const { text, fault } = assemble(program, " NOP 0,,1\nHERE LOAD C'core.bin'\n");
  assert.deepEqual([text, fault?.number, fault?.column], ['', 1, 10]);
});

test('each example is the same deck when it is put into words and back', () => {
  const plain = examples().examples.filter(it => !it.fault && !/^[ \t]*CHANNEL/im.test(it.deck)).slice(0, 120);
  assert.ok(plain.length > 50);
  for (const it of plain) {
    const words = disassemble(program, it.deck);
    assert.equal(words.fault, null, it.name);
    const again = assemble(program, words.text);
    assert.equal(again.fault, null, it.name);
    assert.equal(disassemble(program, again.text).text, words.text, it.name);
  }
});

test('the worker answers both', async () => {
  const answer = server();
  await answer({ id: 1, method: 'start', args: [moduleBytes('program'), moduleBytes('library')] });
  assert.deepEqual(await answer({ id: 2, method: 'assemble', args: [WORDS] }), { id: 2, result: { text: DECK, fault: null } });
  const words = /** @type {any} */ (await answer({ id: 3, method: 'disassemble', args: [DECK] }));
  assert.match(words.result.text, /SIDEQ/);
});

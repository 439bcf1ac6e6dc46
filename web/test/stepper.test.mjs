// @ts-check
// A deck's steps are the program's: all examples whole, and 200 places of them, forwards and back.

import assert from 'node:assert/strict';
import test from 'node:test';
import { deckBytes, hex, hexOf } from '../src/deck.mjs';
import { drivesOf } from '../src/examples.mjs';
import { Fault } from '../src/fault.mjs';
import { Program } from '../src/program.mjs';
import { Stepper } from '../src/stepper.mjs';
import { traced } from '../src/tracing.mjs';
import { examples, moduleOf } from './modules.mjs';

/** @typedef {import('../src/examples.mjs').Example} Example */
/** @typedef {import('../src/stepper.mjs').Moment} Moment */

const modules = { program: moduleOf('program'), library: moduleOf('library') };
const program = new Program(modules.program), all = examples();
const PLACES = 200, SHOWN = 65536, CODES = { available: 0, ended: 1, working: 2 };

/**
 * A deck of an example, and what runs it at the program.
 * @param {Example} example
 */
async function machineOf(example) {
  const { channel, storage } = example, drives = await drivesOf(all.images, example);
  return { deck: { text: example.deck, storage, drives, channel }, machine: { channel, storage, drives } };
}

test('each example answers as it must, and its trace is the program\'s', async () => {
  for (const example of all.examples) {
    const { deck, machine } = await machineOf(example);
    if (example.fault) {
      const isSo = (/** @type {any} */ it) => it instanceof Fault && it.message === example.fault;
      assert.throws(() => new Stepper(modules, deck), isSo, example.name);
      continue;
    }
    const stepper = new Stepper(modules, deck), plain = traced(program, { text: example.deck, marks: [], isWhole: true }, machine);
    assert.equal(stepper.disagreement, null, example.name);
    assert.deepEqual(stepper.events.map(it => it.answer), example.answers, example.name);
    assert.equal(stepper.trace.map(it => `${it.text}\n`).join(''), plain.trace, example.name);
  }
});

/**
 * The trace's lines of the program for a deck that stops at a moment, without the line of the step that leads there, and without what
 * still runs; its storage, up to 65,536 bytes of it; and the condition code of Test Channel.
 * @param {Stepper} stepper
 * @param {Moment} at
 * @param {{ channel: number, storage: number, drives: import('../src/stepper.mjs').DeckDrive[] }} machine
 */
function programAt(stepper, at, machine) {
  const before = stepper.events.slice(0, at.event).map(it => it.line), into = at.unit ? [`RUN ${at.unit}`] : [];
  const shows = Array.from({ length: Math.min(machine.storage, SHOWN) / 32 }, (_, place) => `SHOW ${hex(32 * place, 1)} 32`);
  const said = traced(program, { text: [...before, ...into, ...shows, 'TCH', ''].join('\n'), marks: [], isWhole: true }, machine);
  const lines = said.trace.split('\n').filter(it => it && !/still runs$/.test(it)).slice(0, -1);
  if (at.unit) lines.splice(lines.lastIndexOf(`RUN ${at.unit}`), 1);
  const storage = said.answers.slice(-1 - shows.length, -1).map(it => it.split(' ')[2]).join('');
  return { lines, storage, code: Number(said.answers[said.answers.length - 1].slice(-1)) };
}

test(`${PLACES} places, forwards and back, are as the program has them`, async () => {
  const long = all.examples.filter(it => !it.fault && it.answers.some(answer => /^(STEP|RUN) \d{2,}$/.test(answer)));
  let place = 0, seed = 1;
  const chance = (/** @type {number} */ below) => (seed = (seed * 48271) % 2147483647) % below;
  while (place < PLACES) {
    const { deck, machine } = await machineOf(long[chance(long.length)]), stepper = new Stepper(modules, deck);
    for (let many = 0; many < 8 && place < PLACES; many++, place++) {
      const event = chance(stepper.events.length + 1), units = stepper.events[event]?.units ?? 0;
      const state = stepper.go({ event, unit: chance(units + 1) }, [{ at: 0, length: SHOWN }]);
      const wanted = programAt(stepper, state.at, machine);
      assert.deepEqual(stepper.trace.slice(0, state.traceLines).map(it => it.text), wanted.lines);
      assert.ok(hexOf(state.storage[0].bytes) === wanted.storage, 'storage is another');
      assert.equal(CODES[state.channels[0].subchannel], wanted.code);
    }
  }
});

test('steps lead to the next moment and back again', async () => {
  const example = /** @type {Example} */ (all.examples.find(it => it.name === 'A search with TIC')), { deck } = await machineOf(example);
  const stepper = new Stepper(modules, deck), start = { event: 0, unit: 0 }, end = { event: stepper.events.length, unit: 0 };
  for (const by of /** @type {const} */ (['event', 'word', 'unit'])) {
    const there = [start];
    while (there[there.length - 1].event < end.event) there.push(stepper.next(there[there.length - 1], by, 1));
    const back = [end];
    while (back[back.length - 1].event + back[back.length - 1].unit > 0) back.push(stepper.next(back[back.length - 1], by, -1));
    assert.deepEqual(back.reverse(), there);
  }
});

test('several channels: each has its trace, and what another one stores is seen', () => {
  const text = [
    'STORE 48 00000400', 'STORE 400 1600070020000010', 'SIO 190', 'STORE 48 00000410', 'STORE 410 1600071020000010', 'SIO 290',
    'RUN', 'CHANNEL 2', 'STEP 5', 'RUN', 'INT', 'CHANNEL 1', 'INT', 'SHOW 700 32',
  ].join('\n');
  const drives = [{ address: 0x190, model: 2311, cylinders: 1 }, { address: 0x290, model: 2314, cylinders: 1 }];
  const stepper = new Stepper(modules, { text, storage: 65536, drives });
  assert.equal(stepper.disagreement, null);
  assert.deepEqual(stepper.events.map(it => it.answer).filter(it => !it.startsWith('STORE')), [
    'SIO 190 CC 0', 'SIO 290 CC 0', 'RUN 17', 'STEP 5', 'RUN 12', 'INT 290 00000418 0C000000', 'INT 190 00000408 0C000000',
    'SHOW 000700 00000000000000080000000000000000' + '00000000000000080000000000000000',
  ]);
  assert.deepEqual(stepper.trace.filter(it => it.kind === 'word').map(it => [it.text.slice(1, 7), it.at]), [
    ['000400', { event: 7, unit: 0 }], ['000410', { event: 9, unit: 0 }],
  ]);
  const state = stepper.go({ event: 8, unit: 0 });
  assert.deepEqual(state.channels.map(it => [it.number, it.subchannel, it.device]), [[1, 'ended', 0x190], [2, 'working', 0x290]]);
});

test('a deck\'s bytes above 7F go to the program as they are', () => {
  assert.deepEqual([...deckBytes('A\u0080\u00FF')], [0x41, 0x80, 0xFF]);
  assert.deepEqual([...deckBytes('\u2603')], [0xE2, 0x98, 0x83]);
});

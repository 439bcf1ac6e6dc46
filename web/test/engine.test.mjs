// @ts-check
// The library, the program, volumes and messages, as the page has them.

import assert from 'node:assert/strict';
import fs from 'node:fs';
import test from 'node:test';
import { Fault } from '../src/fault.mjs';
import { Subsystem, SUBCHANNEL } from '../src/library.mjs';
import { MemoryFiles } from '../src/memory_files.mjs';
import { Program, textOf } from '../src/program.mjs';
import { ERROR, FLAG, KIND, SystemFault } from '../src/system.mjs';
import { tarOf } from '../src/tar.mjs';
import { Volumes } from '../src/volume.mjs';
import { server } from '../src/worker.mjs';
import { moduleBytes, moduleOf, own } from './modules.mjs';

const library = moduleOf('library'), program = new Program(moduleOf('program')), volumes = new Volumes(program);

/**
 * A section of a module of WebAssembly: its number, its length and its bytes.
 * @param {number} number
 * @param {...number} bytes
 */
function section(number, ...bytes) { return [number, bytes.length, ...bytes]; }

/**
 * The export of a function.
 * @param {string} name
 * @param {number} place
 */
function exported(name, place) { return [name.length, ...Buffer.from(name), 0, place]; }

// A module that stands in for the library: its Test I/O is the instruction `unreachable`, and its version is how often dasd_new was called.
const TRAPPING = new Uint8Array([
  0, 0x61, 0x73, 0x6D, 1, 0, 0, 0,
  // the types: of malloc, dasd_new, dasd_tio, dasd_version
  ...section(1, 4, 0x60, 1, 0x7E, 1, 0x7E, 0x60, 3, 0x7E, 0x7F, 0x7F, 1, 0x7F, 0x60, 2, 0x7E, 0x7F, 1, 0x7F, 0x60, 0, 1, 0x7F),
  ...section(3, 4, 0, 1, 2, 3),
  ...section(5, 1, 0, 1),
  ...section(6, 1, 0x7F, 1, 0x41, 0, 0x0B),
  ...section(7, 5, ...exported('malloc', 0), ...exported('dasd_new', 1), ...exported('dasd_tio', 2), ...exported('dasd_version', 3),
    6, ...Buffer.from('memory'), 2, 0),
  // i64.const 64; the global and one more, i32.const 0; unreachable; the global
  ...section(10, 4, 5, 0, 0x42, 0xC0, 0, 0x0B, 11, 0, 0x23, 0, 0x41, 1, 0x6A, 0x24, 0, 0x41, 0, 0x0B, 3, 0, 0, 0x0B, 4, 0, 0x23, 0, 0x0B),
]);

/**
 * A refusal by its name.
 * @param {string} name
 */
function named(name) { return (/** @type {unknown} */ thrown) => thrown instanceof Fault && thrown.name === name; }

test('a Start I/O: the program of docs/EMBEDDING.md', () => {
  const disks = new Subsystem(library, 65536, 1);
  disks.attachNew(0x190, 2314, 203);
  disks.poke(0x48, [0, 0, 1, 0]);
  disks.poke(0x100, [0x16, 0, 2, 0, 0x20, 0, 0, 0x10]);
  assert.equal(disks.sio(0x190), 0);
  assert.deepEqual(disks.runOn(1, 1000), { units: 17, subchannel: SUBCHANNEL.ENDED, device: 0x90, asked: false });
  assert.equal(disks.isPending(1), true);
  assert.equal(disks.interrupt(1), 0x190);
  assert.deepEqual([...disks.peek(64, 8)], [0, 0, 1, 8, 0x0C, 0, 0, 0]);
  assert.deepEqual(disks.drive(0x190), { model: 2314, cylinders: 203, cylinder: 0, head: 0, arm: 0, sense: new Uint8Array(6) });
  assert.deepEqual(disks.channel(1), { subchannel: 0, device: 0, asked: false, units: [0x90], arms: [0] });
  disks.setKey(2048, 7);
  assert.equal(disks.key(4095), 7);
  assert.equal(disks.reset(1), null);
});

test('what is refused is refused by its name, and changes nothing', () => {
  const disks = new Subsystem(library, 65536, 1);
  assert.throws(() => disks.attach(0x190, [new Uint8Array(600)]), named('NOT_CKD_P370'));
  assert.throws(() => disks.attach(0x190, []), named('NO_FILES'));
  assert.throws(() => disks.attach(0x290, [new Uint8Array(600)]), named('NO_CHANNEL'));
  assert.throws(() => disks.detach(0x190), named('NO_DRIVE'));
  assert.throws(() => disks.peek(65530, 8), named('OUTSIDE_STORAGE'));
  assert.throws(() => new Subsystem(library, 65535, 1), named('BAD_SIZE'));
  assert.throws(() => new Subsystem(library, 65536, 7), named('BAD_CHANNELS'));
  assert.throws(() => Subsystem.check(library, [new Uint8Array(20)]), named('LENGTH'));
  disks.attachNew(0x190, 2311, 1);
  assert.throws(() => disks.attachNew(0x190, 2311, 1), named('ADDRESS_TAKEN'));
});

test('want of memory is refused, and the next call works', () => {
  const disks = new Subsystem(library, 65536, 1);
  // 65,535 cylinders of a 2314 are 10 GB
  assert.throws(() => disks.attachNew(0x190, 2314, 65535), named('NO_MEMORY'));
  disks.attachNew(0x190, 2314, 2);
  assert.equal(disks.tio(0x190), 0);
});

test('a call that traps says so, and a new instance takes its place', () => {
  const disks = new Subsystem(new WebAssembly.Module(TRAPPING), 65536, 1);
  assert.equal(disks.version(), 1);
  assert.throws(() => disks.tio(0x190), named('TRAPPED'));
  assert.equal(disks.version(), 0, 'the new instance was not made anything of');
  disks.make(65536, 1);
  assert.equal(disks.version(), 1);
});

test('a volume is looked at, dumped, compared and taken out', () => {
  const bad = new Uint8Array(fs.readFileSync(own('..', 'conformance', 'vectors', 'bad.img')));
  const files = new Map([['a+b.ckd', bad]]);
  const look = volumes.look(files), { model, cylinders, heads } = look.geometry;
  assert.deepEqual([model, cylinders, heads, look.tracks.length], [2311, 1, 10, 10]);
  assert.ok(look.tracks.some(it => it.unreadable) && look.findings.some(it => it.severity === 'error'));
  assert.equal(look.sums.errors, look.findings.filter(it => it.severity === 'error').length);
  assert.equal(look.label, null);
  const other = new Map([['c.ckd', volumes.format(2311, 1)]]), compared = volumes.compare(files, other);
  assert.equal(compared.same, false);
  const number = compared.tracks.length;
  assert.ok(number > 0 && compared.text.endsWith(number === 1 ? '1 track differs\n' : `${number} tracks differ\n`));
  assert.equal(volumes.compare(other, other).same, true);
  assert.deepEqual(volumes.dump(other, 0, 3).records.map(it => [it.identifier, it.data.length]), [['0000000300', 8]]);
  assert.throws(() => volumes.look(new Map([['x', new Uint8Array(700)]])), named('REFUSED'));
  assert.throws(() => volumes.extract(other, 'NO.SUCH', { text: true }), named('REFUSED'));
});

test('files in memory are as those of a system, and the bytes that were given stay', () => {
  const given = new Uint8Array([1, 2, 3]), files = new MemoryFiles(new Map([['./a', given]]), new Uint8Array([9]), ['out']);
  const path = (/** @type {string} */ name) => new TextEncoder().encode(name);
  const now = (/** @type {string} */ name) => [...files.files().get(name) ?? []];
  const failing = (/** @type {number} */ number) => (/** @type {unknown} */ thrown) =>
    thrown instanceof SystemFault && thrown.number === number;
  const one = files.open(path('a'), 2, 0), other = files.duplicate(one), few = new Uint8Array(2);
  assert.equal(files.seek(one, 1, 0), 1);
  files.write(other, new Uint8Array([7, 8]));
  assert.deepEqual([now('a'), [...given]], [[1, 7, 8], [1, 2, 3]]);
  files.write(one, new Uint8Array([9]));
  assert.deepEqual(now('a'), [1, 7, 8, 9]);
  files.close(one);
  assert.throws(() => files.close(one), failing(ERROR.BAD_DESCRIPTOR));
  assert.equal(files.seek(other, 0, 1), 4);
  assert.equal(files.readAt(other, few, 1), 2);
  assert.deepEqual([...few], [7, 8]);
  files.truncate(other, 2);
  files.truncate(other, 3);
  assert.deepEqual(now('a'), [1, 7, 0]);
  assert.throws(() => files.open(path('none'), 0, 0), failing(ERROR.NO_ENTRY));
  assert.throws(() => files.open(path('no/folder'), FLAG.CREATES | 1, 0o644), failing(ERROR.NO_ENTRY));
  assert.throws(() => files.open(path('out'), FLAG.CREATES | 1, 0), failing(ERROR.IS_FOLDER));
  const folder = files.open(path('out'), 0, 0);
  assert.throws(() => files.read(folder, new Uint8Array(1)), failing(ERROR.IS_FOLDER));
  files.sync(folder);
  files.close(folder);
  const made = files.open(path('out/b'), FLAG.CREATES | FLAG.EXCLUSIVE | 1, 0o640);
  files.write(made, few);
  assert.throws(() => files.open(path('out/b'), FLAG.CREATES | FLAG.EXCLUSIVE | 1, 0o640), failing(ERROR.EXISTS));
  files.link(path('out/b'), path('c'));
  assert.equal(files.factsOf(made).links, 2);
  assert.equal(files.facts(path('./out/b')).mode, KIND.REGULAR | 0o640);
  files.rename(path('c'), path('a'));
  assert.deepEqual([now('a'), [...files.files().keys()].sort()], [[7, 8], ['a', 'out/b']]);
  files.unlink(path('a'));
  assert.throws(() => files.unlink(path('a')), failing(ERROR.NO_ENTRY));
  assert.throws(() => files.seek(0, 0, 0), failing(ERROR.NO_SEEK));
});

test('an archive has a header and whole blocks for each file, and a long name whole', () => {
  const long = 'A'.repeat(160), tar = tarOf(new Map([['ONE', new Uint8Array(3).fill(65)], [long, new Uint8Array(600)]]));
  const at = (/** @type {number} */ block) => tar.subarray(512 * block, 512 * block + 512);
  assert.equal(tar.length, 512 * (1 + 1 + 1 + 1 + 1 + 2 + 2));
  assert.equal(textOf(at(0).subarray(0, 3)), 'ONE');
  assert.equal(textOf(at(0).subarray(124, 135)), '00000000003');
  assert.equal(textOf(at(2).subarray(156, 157)), 'x');
  assert.equal(textOf(at(3)).replace(/\0+$/, ''), `170 path=${long}\n`);
  for (const header of [at(0), at(2), at(4)]) {
    const sum = header.reduce((all, it, place) => all + (place >= 148 && place < 156 ? 32 : it), 0);
    assert.equal(parseInt(textOf(header.subarray(148, 154)), 8), sum);
  }
});

test('messages are answered in their order, and a fault leaves all as it was', async () => {
  const answer = server();
  let id = 0;
  /** @type {(method: string, ...args: any[]) => Promise<any>} */
  const ask = (method, ...args) => answer({ id: ++id, method, args });
  assert.equal((await ask('open', new Map())).fault.name, 'BAD_REQUEST');
  assert.match((await ask('start', moduleBytes('program'), moduleBytes('library'))).result.version, /^\d+\.\d+\.\d+$/);
  const { volume, look } = (await ask('format', 2311, 3)).result;
  assert.equal(look.tracks.length, 30);
  assert.equal((await ask('open', new Map([['x', new Uint8Array(9)]]))).fault.name, 'REFUSED');
  assert.equal((await ask('constructor')).fault.name, 'BAD_REQUEST');
  assert.deepEqual((await ask('deckFault', 'SIO 190\n\nSTEP x\n')).result, { number: 2, text: 'bad operand' });
  assert.equal((await ask('deckFault', 'SIO 190\n')).result, null);
  const text = 'STORE 48 00000400\nSTORE 400 1600060000000010\nSIO 190\nRUN\nINT\n', drives = [{ address: 0x190, volume }];
  const played = (await ask('play', { text, storage: 65536, drives })).result;
  const answers = played.events.map((/** @type {any} */ it) => it.answer);
  assert.deepEqual(answers, ['STORE OK', 'STORE OK', 'SIO 190 CC 0', 'RUN 17', 'INT 190 00000408 0C000000']);
  assert.deepEqual(played.changed, []);
  const state = (await ask('next', played.deck, { event: 3, unit: 3 }, 'unit', -1, [{ at: 64, length: 8 }])).result;
  assert.deepEqual(state.at, { event: 3, unit: 2 });
  assert.equal(state.channels[0].subchannel, 'working');
  assert.equal((await ask('step', 99, { event: 0, unit: 0 })).fault.name, 'BAD_REQUEST');
  assert.equal((await ask('left', played.deck, 0x190)).result.look.tracks.length, 30);
});

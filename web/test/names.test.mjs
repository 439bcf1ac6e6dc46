// @ts-check
// What the modules import and export is what imports.txt and exports.txt have, and c/dasd.h.

import assert from 'node:assert/strict';
import fs from 'node:fs';
import test from 'node:test';
import { system } from '../src/system.mjs';
import { MemoryFiles } from '../src/memory_files.mjs';
import { moduleOf, own } from './modules.mjs';

/**
 * The names that a list has of a module.
 * @param {string} file
 * @param {string} name
 */
function listed(file, name) {
  const lines = fs.readFileSync(own(file), 'utf8').split('\n').filter(it => it && !it.startsWith('#'));
  return lines.map(it => it.split(' ')).filter(it => it[0] === name).map(it => it[1]).sort();
}

for (const name of ['library', 'program']) {
  test(`the ${name} imports and exports what is listed`, () => {
    const module = moduleOf(name), imports = WebAssembly.Module.imports(module);
    assert.deepEqual(imports.map(it => it.name).sort(), listed('imports.txt', name));
    assert.ok(imports.every(it => it.module === 'env' && it.kind === 'function'));
    assert.deepEqual(WebAssembly.Module.exports(module).map(it => it.name).sort(), listed('exports.txt', name));
  });
}

test('the library exports each call of c/dasd.h', () => {
  const header = fs.readFileSync(own('..', 'c', 'dasd.h'), 'utf8');
  const calls = [...header.matchAll(/^(?:u?int32_t) (dasd_\w+)\(.*\);$/gm)].map(it => it[1]).sort();
  assert.deepEqual(listed('exports.txt', 'library').filter(it => it.startsWith('dasd_')), calls);
});

test('the system has each function that is listed', () => {
  const { env } = system(new MemoryFiles(new Map(), new Uint8Array(0)), []);
  assert.deepEqual(listed('imports.txt', 'program').filter(it => typeof env[it] !== 'function'), []);
});

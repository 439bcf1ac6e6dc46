// @ts-check
// The modules that the tests are of: out/library.wasm and out/program.wasm, or those of the folder that DASD_MODULES names.

import fs from 'node:fs';
import path from 'node:path';
import process from 'node:process';
import { fileURLToPath } from 'node:url';

const HERE = path.dirname(fileURLToPath(import.meta.url));
const FOLDER = process.env.DASD_MODULES ?? path.join(HERE, '..', 'out');

/**
 * A file of this folder's.
 * @param {...string} names from the folder web/
 */
export function own(...names) { return path.join(HERE, '..', ...names); }

/**
 * The bytes of a module by its name: library, program or parts.
 * @param {string} name
 */
export function moduleBytes(name) { return fs.readFileSync(path.join(FOLDER, `${name}.wasm`)); }

/**
 * The module itself.
 * @param {string} name
 */
export function moduleOf(name) { return new WebAssembly.Module(moduleBytes(name)); }

/**
 * The examples, which examples.py makes.
 * @returns {import('../src/examples.mjs').Examples}
 */
export function examples() { return JSON.parse(fs.readFileSync(path.join(FOLDER, 'examples.json'), 'utf8')); }

// @ts-check
// The program `dasd` over its module: words, standard input and files go in; what it prints, its status and the files that it leaves
// come out. Each run is an instance of its own, so that a run that stops leaves nothing behind.

import { Fault, isTrap } from './fault.mjs';
import { MemoryFiles } from './memory_files.mjs';
import { system } from './system.mjs';

/** @typedef {Map<string, Uint8Array | import('./image.mjs').Image>} Files */
/** @typedef {{ status: number, output: Uint8Array, errors: Uint8Array, files: Files }} Ended */

/**
 * Bytes as text of UTF-8.
 * @param {Uint8Array} bytes
 */
export function textOf(bytes) { return new TextDecoder().decode(bytes); }

/**
 * The first line of what a run said on standard error, without the program's name.
 * @param {Ended} ended
 */
export function faultText(ended) { return textOf(ended.errors).split('\n')[0].replace(/^dasd: |^error: /, ''); }

/**
 * A run that was refused, as a Fault with the program's words.
 * @param {Ended} ended
 */
export function refusal(ended) { return new Fault('REFUSED', faultText(ended)); }

/** @param {string | Uint8Array} input */
function inputBytes(input) { return typeof input === 'string' ? new TextEncoder().encode(input) : input; }

/**
 * Runs the program's module over a host of files; its status.
 * @param {WebAssembly.Module} module
 * @param {string[]} words without the program's name
 * @param {import('./system.mjs').Host} host
 */
export function runOver(module, words, host) {
  const { env, memory } = system(host, ['dasd', ...words]);
  const instance = new WebAssembly.Instance(module, { env });
  memory.memory = /** @type {WebAssembly.Memory} */ (instance.exports.memory);
  try {
    return /** @type {(count: number, words: bigint) => number} */ (instance.exports.main)(0, 0n);
  } catch (thrown) {
    if (!isTrap(thrown)) throw thrown;
    throw new Fault('TRAPPED', `the program's module stopped (${/** @type {Error} */ (thrown).message})`);
  }
}

export class Program {
  #module;

  /** @param {WebAssembly.Module} module */
  constructor(module) { this.#module = module; }

  /**
   * Runs `dasd` once over files in memory. A file that it did not write comes back as the very same bytes.
   * @param {string[]} words without the program's name
   * @param {Files} [files]
   * @param {string | Uint8Array} [input]
   * @param {string[]} [folders]
   * @returns {Ended}
   */
  run(words, files = new Map(), input = '', folders = []) {
    const host = new MemoryFiles(files, inputBytes(input), folders);
    const status = runOver(this.#module, words, host);
    return { status, output: host.printed(1), errors: host.printed(2), files: host.files() };
  }
}

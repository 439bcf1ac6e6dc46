// @ts-check
// The engine as the page asks it: a worker, so that the page never waits; each question is a promise.

import { decoded, through } from './packed.mjs';

/** @typedef {import('./worker.mjs').Reply} Reply */

/** A refusal: what was asked for is not done, and `message` says why. */
export class Refused extends Error {}

/**
 * Bytes that are packed into the page under a name: base64 of their gzip.
 * @param {string} name
 * @returns {Promise<Uint8Array>}
 */
export async function unpacked(name) {
  const text = document.getElementById(name)?.textContent?.trim();
  if (!text) throw new Refused(`the page has no ${name}`);
  return new Uint8Array(await new Response(through(decoded(text), 'DecompressionStream', 'gzip')).arrayBuffer());
}

/** The worker that has the program and the library. */
export class Engine {
  /** @type {Map<number, {done: (result: any) => void, refused: (fault: Error) => void}>} */
  #waiting = new Map();
  #next = 1;
  /** @type {(version: any) => void} */
  #opened = () => {};
  /** @type {Promise<any>} */
  #started = new Promise(done => { this.#opened = done; });
  /** @type {Worker} */
  #worker;

  constructor() {
    const source = document.getElementById('worker')?.textContent ?? '';
    const url = URL.createObjectURL(new Blob([source], { type: 'text/javascript' }));
    this.#worker = new Worker(url);
    this.#worker.onmessage = ({ data }) => this.#answered(data);
    this.#worker.onerror = event => this.#lost(event.message || 'the worker stopped');
  }

  /** Both modules are handed over. What is asked before waits for it. */
  async start() {
    const [program, library] = await Promise.all(['program.wasm', 'library.wasm'].map(unpacked));
    const started = await this.#send('start', [program.buffer, library.buffer], [program.buffer, library.buffer]);
    this.#opened(started);
    return started;
  }

  /**
   * @param {string} method
   * @param {...any} args
   * @returns {Promise<any>}
   */
  async ask(method, ...args) {
    await this.#started;
    return this.#send(method, args);
  }

  /**
   * Asks with files: bytes are given away, so that they are not there twice; a browser's file is named to the worker, which reads it.
   * @param {string} method
   * @param {Map<string, Uint8Array | Blob>} files
   * @returns {Promise<any>}
   */
  async give(method, files) {
    await this.#started;
    return this.#send(method, [files], [...files.values()].flatMap(it => (it instanceof Uint8Array ? [it.buffer] : [])));
  }

  /**
   * @param {string} method
   * @param {any[]} args
   * @param {any[]} [given] what is given away
   * @returns {Promise<any>}
   */
  #send(method, args, given = []) {
    const id = this.#next++;
    return new Promise((done, refused) => {
      this.#waiting.set(id, { done, refused });
      this.#worker.postMessage({ id, method, args }, given);
    });
  }

  /** @param {any} reply */
  #answered(reply) {
    const one = this.#waiting.get(reply.id);
    this.#waiting.delete(reply.id);
    if (reply.fault) one?.refused(new Refused(reply.fault.text));
    else one?.done(reply.result);
  }

  /** @param {string} why */
  #lost(why) {
    for (const { refused } of this.#waiting.values()) refused(new Refused(why));
    this.#waiting.clear();
  }
}

// @ts-check
// The engine behind messages, so that a page's thread never waits: { id, method, args } is answered by { id, result }, or by { id, fault }
// with the fault's name and text. The first message is `start`, with the bytes of the program's module and of the library's, and is
// answered by { version }; methods.mjs has the others. A fault leaves all that is open as it was.

import { Fault } from './fault.mjs';
import { METHODS, Methods } from './methods.mjs';

/** @typedef {{ id: number, method: string, args: any[] }} Request */
/** @typedef {{ id: number, result: any } | { id: number, fault: { name: string, text: string } }} Reply */

/**
 * Answers requests one after another.
 * @returns {(request: Request) => Promise<Reply>}
 */
export function server() {
  /** @type {Methods | null} */
  let methods = null;
  /** @type {Promise<any>} */
  let last = Promise.resolve();

  /** @param {Request} request */
  async function result({ method, args }) {
    if (method === 'start') {
      const [program, library] = await Promise.all(args.map(it => WebAssembly.compile(it)));
      methods = new Methods({ program, library });
      return { version: methods.version() };
    }
    if (!methods || !METHODS.has(method)) throw new Fault('BAD_REQUEST', methods ? `no method ${method}` : 'the engine is not started');
    return /** @type {any} */ (methods)[method](...args);
  }

  return request => {
    /** @type {Promise<Reply>} */
    const reply = last.then(() => result(request))
      .then(value => ({ id: request.id, result: value }), thrown => ({ id: request.id, fault: told(thrown) }));
    last = reply;
    return reply;
  };
}

/**
 * What is thrown, as it is told: memory that the browser refuses is a RangeError.
 * @param {unknown} thrown
 */
function told(thrown) {
  if (thrown instanceof Fault) return { name: thrown.name, text: thrown.message };
  if (thrown instanceof RangeError) return { name: 'NO_MEMORY', text: `the browser refused memory: ${thrown.message}` };
  return { name: 'BROKEN', text: String(/** @type {any} */ (thrown)?.stack ?? thrown) };
}

/**
 * Serves a port: a worker's own, or one that is like it.
 * @param {{ postMessage: (reply: any) => void, onmessage: ((event: { data: any }) => void) | null }} port
 */
export function serve(port) {
  const answer = server();
  port.onmessage = async ({ data }) => port.postMessage(await answer(data));
}

// in a browser's worker this file is the whole of it
const scope = /** @type {any} */ (globalThis);
if (typeof scope.WorkerGlobalScope === 'function' && scope instanceof scope.WorkerGlobalScope) serve(scope);

// @ts-check
// What is packed, read up to a bound: a small gzip or link may hold any number of bytes.

/** There are more bytes than were allowed. */
export class TooLong extends Error {}

/** Letters of base64 that are decoded at a time: a multiple of four. */
const SLICE = 1 << 20;

/**
 * The parts of a stream.
 * @param {ReadableStream} stream
 * @param {number} most more bytes are not read
 * @param {(length: number) => void} [came] told of the bytes so far
 * @returns {Promise<Uint8Array[]>}
 */
export async function collected(stream, most, came = () => {}) {
  const reader = stream.getReader(), parts = [];
  let length = 0;
  for (let it = await reader.read(); !it.done; it = await reader.read()) {
    parts.push(it.value);
    length += it.value.length;
    if (length > most) {
      reader.cancel().catch(() => {});
      throw new TooLong(`more than ${most.toLocaleString('en')} bytes`);
    }
    came(length);
  }
  return parts;
}

/**
 * The same stream through another one, as the browser has it by name.
 * @param {Blob} blob
 * @param {'CompressionStream' | 'DecompressionStream'} name
 * @param {'gzip' | 'deflate'} format
 * @returns {ReadableStream}
 */
export function through(blob, name, format) {
  const Through = /** @type {any} */ (globalThis)[name];
  return blob.stream().pipeThrough(new Through(format));
}

/**
 * The bytes of a base64, decoded in slices. An Error says that it is none.
 * @param {string} text
 * @returns {Blob}
 */
export function decoded(text) {
  const parts = [];
  for (let at = 0; at < text.length; at += SLICE) parts.push(Uint8Array.from(atob(text.slice(at, at + SLICE)), it => it.charCodeAt(0)));
  return new Blob(parts);
}

// @ts-check
// The bytes of a pack's file, as the engine holds them: whole in memory; in slices of the browser's own file, as a large pack that nothing
// has changed; or as another image of which some tracks are changed, so that a pack before and after a deck are not in memory twice.

import { Fault } from './fault.mjs';

/** A file of more bytes than this is read in slices. */
export const LARGE = 64 * 1024 * 1024;
const SLICE = 2 * 1024 * 1024, SLICES = 4;
const HEADER = 512, SLOT_AT = 12;

/** @typedef {Whole | Sliced | Changed} Image */

/** Bytes in memory. */
export class Whole {
  /** @param {Uint8Array} bytes */
  constructor(bytes) { this.bytes = bytes; }

  get length() { return this.bytes.length; }

  /**
   * A view of bytes, fewer where the file ends.
   * @param {number} from
   * @param {number} to
   */
  read(from, to) { return this.bytes.subarray(from, to); }

  /** All bytes, to be looked at. */
  all() { return this.bytes; }

  /** What may be given to be saved. */
  saved() { return this.bytes; }

  /** The arrays that it holds in memory. */
  arrays() { return [this.bytes]; }
}

/** A file of the browser, of which the slices that were read last are kept. */
export class Sliced {
  /** @type {Map<number, Uint8Array>} by their numbers, the latest at the end */
  #slices = new Map();

  /**
   * @param {Blob} blob
   * @param {string} name for what is told where it can't be read
   */
  constructor(blob, name) {
    this.blob = blob;
    this.name = name;
    this.length = blob.size;
  }

  /**
   * @param {number} from
   * @param {number} to
   */
  read(from, to) {
    const end = Math.min(to, this.length), first = Math.floor(from / SLICE);
    if (from >= end) return new Uint8Array(0);
    if (Math.floor((end - 1) / SLICE) === first) return this.#slice(first).subarray(from - first * SLICE, end - first * SLICE);
    return this.#bytes(from, end);
  }

  /** @param {number} number */
  #slice(number) {
    const slice = this.#slices.get(number) ?? this.#bytes(number * SLICE, (number + 1) * SLICE);
    this.#slices.delete(number);
    this.#slices.set(number, slice);
    for (const it of this.#slices.keys()) if (this.#slices.size > SLICES) this.#slices.delete(it);
    return slice;
  }

  /**
   * @param {number} from
   * @param {number} to
   */
  #bytes(from, to) {
    try {
      return bytesOf(this.blob.slice(from, to));
    } catch {
      throw new Fault('UNREADABLE', `${this.name} can't be read any more: it has changed on the disk, or is gone, since it was opened`);
    }
  }

  all() { return this.#bytes(0, this.length); }

  saved() { return this.blob; }

  arrays() { return [...this.#slices.values()]; }
}

/** Another image, with some of its parts changed: its header, or tracks in their slots. */
export class Changed {
  /**
   * @param {Whole} base
   * @param {Map<number, Uint8Array>} parts by where they begin
   */
  constructor(base, parts) {
    this.base = base;
    this.parts = parts;
  }

  get length() { return this.base.length; }

  /**
   * @param {number} from
   * @param {number} to
   */
  read(from, to) {
    const bytes = this.base.read(from, to).slice(), end = from + bytes.length;
    for (const [at, part] of this.parts) {
      const first = Math.max(at, from), last = Math.min(at + part.length, end);
      if (first < last) bytes.set(part.subarray(first - at, last - at), first - from);
    }
    return bytes;
  }

  all() { return this.read(0, this.length); }

  saved() { return this.all(); }

  arrays() { return [...this.base.arrays(), ...this.parts.values()]; }
}

/**
 * What a file is held as: a small one whole.
 * @param {Uint8Array | Blob | Image} given
 * @param {string} name
 * @returns {Image}
 */
export function imageFrom(given, name) {
  if (given instanceof Uint8Array) return new Whole(given);
  if (!(given instanceof Blob)) return given;
  const sliced = new Sliced(given, name);
  return given.size > LARGE ? sliced : new Whole(sliced.all());
}

/**
 * What a deck left of an image. A changed pack never depends on a file of the disk: one that was read in slices is whole from then on.
 * @param {Image} before
 * @param {Uint8Array} now
 * @returns {Image}
 */
export function imageAfter(before, now) {
  if (before instanceof Sliced || before.length !== now.length) return new Whole(now);
  const slot = new DataView(now.buffer, now.byteOffset).getUint32(SLOT_AT, true) || now.length, parts = new Map();
  for (let at = 0, end = HEADER; at < now.length; at = end, end += slot) {
    const part = now.subarray(at, end), old = before.read(at, end);
    if (part.some((it, place) => it !== old[place])) parts.set(at, part.slice());
  }
  const [base, former] = before instanceof Changed ? [before.base, before.parts] : [before, new Map()];
  return 2 * parts.size * slot > now.length ? new Whole(now) : new Changed(base, new Map([...former, ...parts]));
}

/**
 * How many bytes images hold in memory together, and others beside them don't; an array that several of them hold counts once.
 * @param {Iterable<Image>} images
 * @param {Iterable<Image>} [beside]
 */
export function weightOf(images, beside = []) {
  const others = new Set([...beside].flatMap(it => it.arrays())), arrays = new Set([...images].flatMap(it => it.arrays()));
  return [...arrays].filter(it => !others.has(it)).reduce((sum, it) => sum + it.length, 0);
}

/**
 * The bytes of a blob, at once: a worker may wait for them.
 * @param {Blob} blob
 */
function bytesOf(blob) {
  const Reader = /** @type {any} */ (globalThis).FileReaderSync;
  return new Uint8Array(new Reader().readAsArrayBuffer(blob));
}

// @ts-check
// The calls of c/dasd.h over the library's module: selector channels with their drives, and main storage. c/dasd.h says what each
// call asks and leaves; a refusal is thrown as a Fault, and then nothing has changed.
//
// The module's pointers have 64 bits, so they cross as BigInt. Views of its memory are made anew for each look, since it may have grown.

import { Fault, isTrap } from './fault.mjs';

/** @typedef {{ subchannel: number, device: number, asked: boolean, units: number[], arms: number[] }} ChannelState */
/** @typedef {{ model: number, cylinders: number, cylinder: number, head: number, arm: number, sense: Uint8Array }} DriveState */
/** @typedef {{ units: number, subchannel: number, device: number, asked: boolean }} Ran */
/** @typedef {{ address: number, cylinder: number, head: number }} Track */

// c/interface.toml: begin
export const ARM = { AT_REST: 0, IN_MOTION: 1, ARRIVED: 2 };
export const SUBCHANNEL = { AVAILABLE: 0, WORKING: 1, ENDED: 2 };

// Where the fields of structs begin, and how many bytes a struct has.
const BYTES = { BYTES: 16, at: 0, len: 8 };
const FILE = { BYTES: 24, at: 0, len: 8, changes: 16 };
const DRIVE = { BYTES: 16, model: 0, cylinders: 2, cylinder: 4, head: 6, arm: 8, sense: 9, reserved: 15 };
const RUN = { BYTES: 8, units: 0, subchannel: 4, device: 5, asked: 6, reserved: 7 };
const TRACK = { BYTES: 6, address: 0, cylinder: 2, head: 4 };
const STATE = { BYTES: 20, subchannel: 0, device: 1, asked: 2, drives: 3, units: 4, arms: 12 };
const STORAGE = { BYTES: 16, at: 0, len: 8 };
// c/interface.toml: end

const HANDLE_BYTES = 16, ROOM_BYTES = 64;

/**
 * The set of these channels, in the form of a system mask (PoO, 'Program Status Word').
 * @param {number[]} numbers
 */
export function channelSet(numbers) {
  if (!numbers.every(it => Number.isInteger(it) && it >= 0 && it <= 6)) throw Fault.of(-6);
  return numbers.reduce((set, it) => set | (0x80 >> it), 0);
}

export class Subsystem {
  /** @type {WebAssembly.Module} */ #module;
  /** @type {any} */ #exports;
  #handle = 0n;
  #room = 0n;

  /**
   * Main storage of so many zero bytes, and these channels over it.
   * @param {WebAssembly.Module} module
   * @param {number} storageBytes
   * @param {...number} channels
   */
  constructor(module, storageBytes, ...channels) {
    this.#module = module;
    this.#begin();
    this.make(storageBytes, ...channels);
  }

  /**
   * Whether these files are an image: a Fault says why not.
   * @param {WebAssembly.Module} module
   * @param {Uint8Array[]} files
   */
  static check(module, files) {
    const one = new Subsystem(module, 4096, 0);
    one.#lend(files, (at, count) => one.#done(one.#guarded(() => one.#exports.dasd_check(at, count))));
  }

  #begin() {
    this.#exports = new WebAssembly.Instance(this.#module, {}).exports;
    this.#handle = this.#take(HANDLE_BYTES);
    this.#room = this.#take(ROOM_BYTES);
  }

  /**
   * Makes it anew where it holds nothing: behind `free`, or behind a call that trapped.
   * @param {number} storageBytes
   * @param {...number} channels
   */
  make(storageBytes, ...channels) {
    this.#call('new', storageBytes, channelSet(channels));
  }

  free() { this.#call('free'); }

  version() { return /** @type {number} */ (this.#exports.dasd_version()); }

  // --- Volumes and drives ---

  /**
   * @param {number} address
   * @param {Uint8Array[]} files
   */
  attach(address, files) { this.#lend(files, (at, count) => this.#call('attach', address, at, count)); }

  /**
   * @param {number} address
   * @param {number} model 2311 or 2314
   * @param {number} cylinders
   */
  attachNew(address, model, cylinders) { this.#call('attach_new', address, model, cylinders); }

  /** @param {number} address */
  detach(address) { this.#call('detach', address); }

  /**
   * A copy of a file of a drive's volume.
   * @param {number} address
   * @param {number} [file]
   */
  file(address, file = 0) {
    this.#call('show_file', address, file, this.#room);
    const view = this.#roomView(), at = Number(view.getBigUint64(FILE.at, true)), length = Number(view.getBigUint64(FILE.len, true));
    return this.#bytes().slice(at, at + length);
  }

  /**
   * The number of a file's changes: another after each write to it.
   * @param {number} address
   * @param {number} [file]
   */
  changes(address, file = 0) {
    this.#call('show_file', address, file, this.#room);
    return this.#roomView().getBigUint64(FILE.changes, true);
  }

  /**
   * @param {number} address
   * @returns {DriveState}
   */
  drive(address) {
    this.#call('show_drive', address, this.#room);
    const view = this.#roomView(), at = Number(this.#room);
    const [model, cylinders, cylinder, head] =
      [DRIVE.model, DRIVE.cylinders, DRIVE.cylinder, DRIVE.head].map(it => view.getUint16(it, true));
    const sense = this.#bytes().slice(at + DRIVE.sense, at + DRIVE.reserved);
    return { model, cylinders, cylinder, head, arm: view.getUint8(DRIVE.arm), sense };
  }

  // --- The processor's instructions: each answers its condition code ---

  /** @param {number} address */
  sio(address) { return this.#call('sio', address); }
  /** @param {number} address */
  tio(address) { return this.#call('tio', address); }
  /** @param {number} address */
  hio(address) { return this.#call('hio', address); }
  /** @param {number} address */
  tch(address) { return this.#call('tch', address); }

  // --- What happens beside the processor ---

  /**
   * @param {number} channel
   * @param {number} units at most so many
   * @returns {Ran}
   */
  runOn(channel, units) {
    this.#call('run_on', channel, units, this.#room);
    const view = this.#roomView();
    const [subchannel, device, asked] = [RUN.subchannel, RUN.device, RUN.asked].map(it => view.getUint8(it));
    return { units: view.getUint32(RUN.units, true), subchannel, device, asked: asked === 1 };
  }

  /**
   * Whether the arm at an address moved, and has arrived now.
   * @param {number} address
   */
  arrive(address) { return this.#call('arrive', address) === 1; }

  /** @param {...number} channels */
  isPending(...channels) { return this.#call('is_pending', channelSet(channels)) === 1; }

  /**
   * The address whose interruption is taken, or null where none of these channels has one.
   * @param {...number} channels
   */
  interrupt(...channels) {
    return this.#call('interrupt', channelSet(channels), this.#room) === 1 ? this.#roomView().getUint16(0, true) : null;
  }

  /**
   * Resets a channel; a track that could not be saved, or null.
   * @param {number} channel
   * @returns {Track | null}
   */
  reset(channel) {
    if (this.#call('reset', channel, this.#room) === 0) return null;
    const view = this.#roomView();
    const [address, cylinder, head] = [TRACK.address, TRACK.cylinder, TRACK.head].map(it => view.getUint16(it, true));
    return { address, cylinder, head };
  }

  /**
   * @param {number} number
   * @returns {ChannelState}
   */
  channel(number) {
    this.#call('show_channel', number, this.#room);
    const at = Number(this.#room), bytes = this.#bytes().slice(at, at + STATE.BYTES), count = bytes[STATE.drives];
    const [units, arms] = [STATE.units, STATE.arms].map(it => [...bytes.slice(it, it + count)]);
    return { subchannel: bytes[STATE.subchannel], device: bytes[STATE.device], asked: bytes[STATE.asked] === 1, units, arms };
  }

  // --- Main storage ---

  /** Main storage itself, until the next call of anything: a view that is looked at and not kept. */
  storage() {
    this.#call('show_storage', this.#room);
    const view = this.#roomView();
    const [at, length] = [STORAGE.at, STORAGE.len].map(it => Number(view.getBigUint64(it, true)));
    return new Uint8Array(this.#exports.memory.buffer, at, length);
  }

  /**
   * A copy of bytes of storage.
   * @param {number} at
   * @param {number} length
   */
  peek(at, length) {
    const into = this.#take(length);
    try {
      this.#call('peek', at, into, BigInt(length));
      return this.#bytes().slice(Number(into), Number(into) + length);
    } finally {
      this.#give(into);
    }
  }

  /**
   * @param {number} at
   * @param {ArrayLike<number>} bytes
   */
  poke(at, bytes) {
    const from = this.#take(bytes.length);
    try {
      this.#bytes().set(bytes, Number(from));
      this.#call('poke', at, from, BigInt(bytes.length));
    } finally {
      this.#give(from);
    }
  }

  /** @param {number} at */
  key(at) { return this.#call('key', at); }

  /**
   * @param {number} at
   * @param {number} key
   */
  setKey(at, key) { this.#call('set_key', at, key); }

  // --- Checkpoints ---

  /** All that the module holds, to be gone back to: between two calls its memory is all of its state. */
  checkpoint() { return this.#bytes().slice(); }

  /**
   * Goes back to a checkpoint of this very subsystem.
   * @param {Uint8Array} saved
   */
  restore(saved) { this.#bytes().set(saved); }

  // --- How a call is made ---

  /**
   * @param {string} name
   * @param {...(number | bigint)} words
   */
  #call(name, ...words) {
    return this.#done(this.#guarded(() => this.#exports[`dasd_${name}`](this.#handle, ...words)));
  }

  // A call that traps leaves the handle empty and the heap as it was in the middle of it: a new instance takes the place of this one.
  /** @param {() => number} call */
  #guarded(call) {
    try {
      return call();
    } catch (thrown) {
      if (!isTrap(thrown)) throw thrown;
      this.#begin();
      const why = /** @type {Error} */ (thrown).message;
      throw new Fault('TRAPPED', `the library's module stopped (${why}): a new one was begun, which holds nothing`);
    }
  }

  /** @param {number} code */
  #done(code) {
    if (code < 0) throw Fault.of(code);
    return code;
  }

  #bytes() { return new Uint8Array(this.#exports.memory.buffer); }
  #roomView() { return new DataView(this.#exports.memory.buffer, Number(this.#room), ROOM_BYTES); }

  /**
   * Takes memory of the module, all zero.
   * @param {number} length
   * @returns {bigint}
   */
  #take(length) {
    const at = this.#exports.malloc(BigInt(Math.max(length, 1)));
    if (at === 0n) throw Fault.of(-3);
    this.#bytes().fill(0, Number(at), Number(at) + length);
    return at;
  }

  /** @param {bigint} at */
  #give(at) { this.#exports.free(at); }

  // Copies files into the module for the time of a call, which gets an array of pointers and lengths.
  /**
   * @param {Uint8Array[]} files
   * @param {(at: bigint, count: bigint) => void} call
   */
  #lend(files, call) {
    /** @type {bigint[]} */
    const lent = [], instance = this.#exports;
    try {
      const list = this.#take(BYTES.BYTES * files.length);
      lent.push(list);
      files.forEach((file, number) => {
        const at = this.#take(file.length);
        lent.push(at);
        this.#bytes().set(file, Number(at));
        const view = new DataView(this.#exports.memory.buffer, Number(list) + BYTES.BYTES * number, BYTES.BYTES);
        view.setBigUint64(BYTES.at, at, true);
        view.setBigUint64(BYTES.len, BigInt(file.length), true);
      });
      call(list, BigInt(files.length));
    } finally {
      if (instance === this.#exports) lent.forEach(it => this.#give(it));
    }
  }
}

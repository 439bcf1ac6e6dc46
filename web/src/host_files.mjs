// @ts-check
// A host of real files, by node: for `node dasd.mjs`. What it can't do is told in docs/WEB.md: locks, above all.

import fs from 'node:fs';
import process from 'node:process';
import tty from 'node:tty';
import { ERROR, FLAG, SystemFault } from './system.mjs';

/** @typedef {import('./system.mjs').FileFacts} FileFacts */
/**
 * A descriptor of the system. `at` is where it stands in a regular file, of which node keeps no place; null for others.
 * @typedef {{ real: number, at: number | null, isAppended: boolean, users: number }} Opened
 */

/**
 * The numbers of Linux for node's names, which are the same on each system.
 * @type {Record<string, number>}
 */
const NUMBERS = {
  EPERM: 1, ENOENT: 2, EIO: 5, EBADF: 9, ENOMEM: 12, EACCES: 13, EBUSY: 16, EEXIST: 17, EXDEV: 18, ENOTDIR: 20, EISDIR: 21, EINVAL: 22,
  EMFILE: 24, ENOTTY: 25, ETXTBSY: 26, EFBIG: 27, ENOSPC: 28, ESPIPE: 29, EROFS: 30, EPIPE: 32, ENAMETOOLONG: 36, ELOOP: 40, ENOTSUP: 95,
  EDQUOT: 122,
};
/** How long is waited where an input has nothing, or an output takes nothing, in milliseconds. */
const WAIT = 5;

/**
 * What node does; its refusal as the number of Linux.
 * @template T
 * @param {() => T} call
 */
function refusing(call) {
  try {
    return call();
  } catch (thrown) {
    const code = /** @type {any} */ (thrown).code;
    if (typeof code !== 'string' || !/^E[A-Z0-9]+$/.test(code)) throw thrown;
    throw new SystemFault(NUMBERS[code] ?? NUMBERS.EIO);
  }
}

/**
 * The same of a pipe or terminal that does not block: it is asked again.
 * @template T
 * @param {() => T} call
 */
function patiently(call) {
  for (;;) {
    try {
      return call();
    } catch (thrown) {
      if (/** @type {any} */ (thrown).code !== 'EAGAIN') throw thrown;
      Atomics.wait(new Int32Array(new SharedArrayBuffer(4)), 0, 0, WAIT);
    }
  }
}

/**
 * A path, whose bytes are those of the system.
 * @param {Uint8Array} path
 */
function pathOf(path) { return Buffer.from(path); }

/**
 * The flags of this system for those of Linux on x86-64.
 * @param {number} flags
 */
function ownFlags(flags) {
  const { O_CREAT, O_EXCL, O_TRUNC, O_APPEND } = fs.constants;
  const pairs = [[FLAG.CREATES, O_CREAT], [FLAG.EXCLUSIVE, O_EXCL], [FLAG.TRUNCATES, O_TRUNC], [FLAG.APPENDS, O_APPEND]];
  return pairs.reduce((own, [theirs, ours]) => (flags & theirs ? own | ours : own), flags & FLAG.WRITES);
}

/**
 * @param {fs.BigIntStats} stats
 * @returns {FileFacts}
 */
function factsFrom(stats) {
  const [mode, length, links, device, user, group] = [stats.mode, stats.size, stats.nlink, stats.dev, stats.uid, stats.gid].map(Number);
  return { mode, length, links, number: stats.ino, device, user, group };
}

export class HostFiles {
  /** @type {Map<number, Opened>} */ #opened = new Map();
  #next = 3;

  constructor() {
    for (const real of [0, 1, 2]) this.#opened.set(real, opened(real, false));
  }

  /**
   * @param {Uint8Array} path
   * @param {number} flags
   * @param {number} mode
   */
  open(path, flags, mode) {
    const real = refusing(() => fs.openSync(pathOf(path), ownFlags(flags), mode));
    this.#opened.set(this.#next, opened(real, (flags & FLAG.APPENDS) !== 0));
    return this.#next++;
  }

  /** @param {number} descriptor */
  duplicate(descriptor) {
    const it = this.#at(descriptor);
    it.users++;
    this.#opened.set(this.#next, it);
    return this.#next++;
  }

  /** @param {number} descriptor */
  close(descriptor) {
    const it = this.#at(descriptor);
    this.#opened.delete(descriptor);
    it.users--;
    if (!it.users && it.real > 2) refusing(() => fs.closeSync(it.real));
  }

  /**
   * @param {number} descriptor
   * @param {Uint8Array} into
   */
  read(descriptor, into) {
    const it = this.#at(descriptor), count = refusing(() => patiently(() => readOrEnd(it.real, into, it.at)));
    if (it.at !== null) it.at += count;
    return count;
  }

  /**
   * @param {number} descriptor
   * @param {Uint8Array} into
   * @param {number} at
   */
  readAt(descriptor, into, at) { return refusing(() => fs.readSync(this.#at(descriptor).real, into, 0, into.length, at)); }

  /**
   * @param {number} descriptor
   * @param {Uint8Array} from
   */
  write(descriptor, from) {
    const it = this.#at(descriptor), place = it.isAppended ? null : it.at;
    const count = refusing(() => patiently(() => fs.writeSync(it.real, from, 0, from.length, place)));
    if (it.at !== null) it.at = it.isAppended ? Number(fs.fstatSync(it.real).size) : it.at + count;
    return count;
  }

  /**
   * @param {number} descriptor
   * @param {number} by
   * @param {number} from of the beginning, of where it stands, of the end
   */
  seek(descriptor, by, from) {
    const it = this.#at(descriptor);
    if (it.at === null) throw new SystemFault(ERROR.NO_SEEK);
    const to = by + [0, it.at, this.factsOf(descriptor).length][from];
    if (!(to >= 0)) throw new SystemFault(ERROR.INVALID);
    it.at = to;
    return to;
  }

  /**
   * @param {Uint8Array} path
   * @param {boolean} follows
   */
  facts(path, follows) {
    const look = follows ? fs.statSync : fs.lstatSync;
    return refusing(() => factsFrom(/** @type {any} */ (look)(pathOf(path), { bigint: true })));
  }

  /** @param {number} descriptor */
  factsOf(descriptor) { return refusing(() => factsFrom(fs.fstatSync(this.#at(descriptor).real, { bigint: true }))); }

  /**
   * @param {Uint8Array} path
   * @returns {Uint8Array}
   */
  realPath(path) { return refusing(() => fs.realpathSync(/** @type {any} */ (pathOf(path)), { encoding: 'buffer' })); }

  /**
   * @param {Uint8Array} from
   * @param {Uint8Array} to
   */
  rename(from, to) { refusing(() => fs.renameSync(pathOf(from), pathOf(to))); }

  /**
   * @param {Uint8Array} from
   * @param {Uint8Array} to
   */
  link(from, to) { refusing(() => fs.linkSync(pathOf(from), pathOf(to))); }

  /** @param {Uint8Array} path */
  unlink(path) { refusing(() => fs.unlinkSync(pathOf(path))); }

  /**
   * @param {number} descriptor
   * @param {number} length
   */
  truncate(descriptor, length) { refusing(() => fs.ftruncateSync(this.#at(descriptor).real, length)); }

  /**
   * @param {number} descriptor
   * @param {number} mode
   */
  changeMode(descriptor, mode) { refusing(() => fs.fchmodSync(this.#at(descriptor).real, mode)); }

  /**
   * @param {number} descriptor
   * @param {number} user
   * @param {number} group
   */
  changeOwner(descriptor, user, group) { refusing(() => fs.fchownSync(this.#at(descriptor).real, user, group)); }

  /** @param {number} descriptor */
  sync(descriptor) { refusing(() => fs.fsyncSync(this.#at(descriptor).real)); }

  /** @param {number} descriptor */
  isTerminal(descriptor) { return descriptor <= 2 && tty.isatty(descriptor); }

  process() { return process.pid; }

  /** @param {number} descriptor */
  #at(descriptor) {
    const it = this.#opened.get(descriptor);
    if (!it) throw new SystemFault(ERROR.BAD_DESCRIPTOR);
    return it;
  }
}

/**
 * @param {number} real
 * @param {boolean} isAppended
 * @returns {Opened}
 */
function opened(real, isAppended) {
  const isRegular = real > 2 && fs.fstatSync(real).isFile();
  return { real, at: isRegular ? 0 : null, isAppended, users: 1 };
}

/**
 * Some systems tell the end of a standard input as a refusal.
 * @param {number} real
 * @param {Uint8Array} into
 * @param {number | null} at
 */
function readOrEnd(real, into, at) {
  try {
    return fs.readSync(real, into, 0, into.length, at);
  } catch (thrown) {
    if (/** @type {any} */ (thrown).code === 'EOF') return 0;
    throw thrown;
  }
}

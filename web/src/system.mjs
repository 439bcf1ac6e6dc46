// @ts-check
// What the program `dasd` asks of a system, a function each, as the kit's library calls it: numbers and layouts are those of Linux on
// x86-64. Files are a host's: memory_files.mjs in a page, host_files.mjs under node.

/**
 * What a host of files does. A path is bytes, as the program gives it. What is refused is thrown as a SystemFault.
 * @typedef {object} Host
 * @property {(path: Uint8Array, flags: number, mode: number) => number} open a descriptor
 * @property {(descriptor: number) => void} close
 * @property {(descriptor: number, into: Uint8Array) => number} read how many bytes came
 * @property {(descriptor: number, into: Uint8Array, at: number) => number} readAt
 * @property {(descriptor: number, from: Uint8Array) => number} write how many bytes went
 * @property {(descriptor: number, by: number, from: number) => number} seek where it stands then
 * @property {(descriptor: number) => number} duplicate another descriptor of the same open file
 * @property {(path: Uint8Array, follows: boolean) => FileFacts} facts
 * @property {(descriptor: number) => FileFacts} factsOf
 * @property {(path: Uint8Array) => Uint8Array} realPath
 * @property {(from: Uint8Array, to: Uint8Array) => void} rename
 * @property {(from: Uint8Array, to: Uint8Array) => void} link
 * @property {(path: Uint8Array) => void} unlink
 * @property {(descriptor: number, length: number) => void} truncate
 * @property {(descriptor: number, mode: number) => void} changeMode
 * @property {(descriptor: number, user: number, group: number) => void} changeOwner
 * @property {(descriptor: number) => void} sync
 * @property {(descriptor: number) => boolean} isTerminal
 * @property {() => number} process
 */

/**
 * @typedef {object} FileFacts
 * @property {number} mode kind and permissions, as st_mode has them
 * @property {number} length
 * @property {number} links
 * @property {bigint} number the inode's
 * @property {number} device
 * @property {number} user
 * @property {number} group
 */

export const KIND = { REGULAR: 0o100000, FOLDER: 0o040000, PIPE: 0o010000 };
export const FLAG = { WRITES: 0o3, CREATES: 0o100, EXCLUSIVE: 0o200, TRUNCATES: 0o1000, APPENDS: 0o2000 };
export const ERROR = { NO_ENTRY: 2, BAD_DESCRIPTOR: 9, EXISTS: 17, IS_FOLDER: 21, INVALID: 22, NO_TERMINAL: 25, NO_SPACE: 28, NO_SEEK: 29, NOT_SUPPORTED: 95 };

/** Of fcntl: F_DUPFD_CLOEXEC; of statx: AT_SYMLINK_NOFOLLOW. */
const DUPLICATE = 1030, NO_FOLLOW = 0x100;

/**
 * The texts of the GNU C library.
 * @type {Record<number, string>}
 */
const TEXTS = {
  1: 'Operation not permitted', 2: 'No such file or directory', 5: 'Input/output error', 9: 'Bad file descriptor',
  12: 'Cannot allocate memory', 13: 'Permission denied', 16: 'Device or resource busy', 17: 'File exists',
  18: 'Invalid cross-device link', 20: 'Not a directory',
  21: 'Is a directory', 22: 'Invalid argument', 24: 'Too many open files', 25: 'Inappropriate ioctl for device', 26: 'Text file busy',
  27: 'File too large', 28: 'No space left on device', 29: 'Illegal seek', 30: 'Read-only file system', 32: 'Broken pipe',
  36: 'File name too long', 40: 'Too many levels of symbolic links', 95: 'Operation not supported', 122: 'Disk quota exceeded',
};

/** Why a host refuses: a number of errno. */
export class SystemFault extends Error {
  /** @param {number} number */
  constructor(number) {
    super(TEXTS[number] ?? `error ${number}`);
    this.number = number;
  }
}

/** The module's memory, as the functions see it. */
class Memory {
  /** @type {WebAssembly.Memory | null} */
  memory = null;

  get buffer() { return /** @type {WebAssembly.Memory} */ (this.memory).buffer; }

  /**
   * @param {bigint} at
   * @param {bigint} length
   */
  bytes(at, length) { return new Uint8Array(this.buffer, Number(at), Number(length)); }

  /**
   * @param {bigint} at
   * @param {bigint} length
   */
  view(at, length) { return new DataView(this.buffer, Number(at), Number(length)); }

  /**
   * The bytes before the next zero: a copy.
   * @param {bigint} at
   */
  text(at) {
    const all = new Uint8Array(this.buffer);
    return all.slice(Number(at), all.indexOf(0, Number(at)));
  }

  /**
   * Puts bytes and a zero behind them.
   * @param {bigint} at
   * @param {Uint8Array} bytes
   */
  putText(at, bytes) {
    const into = this.bytes(at, BigInt(bytes.length + 1));
    into.set(bytes);
    into[bytes.length] = 0;
  }
}

/** The offsets of `struct statx` (linux/stat.h), and what is filled in: STATX_BASIC_STATS. */
const STATX = {
  BYTES: 256n, MASK: 0x7FF, LINKS: 16, USER: 20, GROUP: 24, MODE: 28, NUMBER: 32, LENGTH: 40, DEVICE_MAJOR: 136, DEVICE_MINOR: 140,
};

/**
 * @param {DataView} view
 * @param {FileFacts} facts
 */
function putFacts(view, facts) {
  view.setUint32(0, STATX.MASK, true);
  view.setUint32(4, 4096, true);
  view.setUint32(STATX.LINKS, facts.links, true);
  view.setUint32(STATX.USER, facts.user, true);
  view.setUint32(STATX.GROUP, facts.group, true);
  view.setUint16(STATX.MODE, facts.mode, true);
  view.setBigUint64(STATX.NUMBER, facts.number, true);
  view.setBigUint64(STATX.LENGTH, BigInt(facts.length), true);
  view.setUint32(STATX.DEVICE_MAJOR, Math.floor(facts.device / 256), true);
  view.setUint32(STATX.DEVICE_MINOR, facts.device % 256, true);
}

/**
 * The functions by name. Numbers of 32 bits come as numbers, pointers and others of 64 bits as BigInt.
 * @typedef {Record<string, (...words: any[]) => number | bigint | void>} Functions
 */

/**
 * The functions over a host, and the memory that they are told once the module stands.
 * @param {Host} host
 * @param {string[]} words the words of the command, the name first
 */
export function system(host, words) {
  const memory = new Memory(), error = new ErrorNumber();
  const alike = [errors(memory, error), descriptors(memory, error, host), paths(memory, error, host), alone(host)];
  return { env: Object.assign(commandWords(memory, words), ...alike), memory };
}

/** The number of the last refusal. */
class ErrorNumber {
  number = 0;

  /**
   * What `call` answers; where the host refuses, the number is kept, and `failed` is answered.
   * @template T
   * @param {() => T} call
   * @param {T} failed
   */
  attempt(call, failed) {
    try {
      return call();
    } catch (thrown) {
      if (!(thrown instanceof SystemFault)) throw thrown;
      this.number = thrown.number;
      return failed;
    }
  }

  /**
   * The same of a call that answers 0.
   * @param {() => void} call
   */
  done(call) {
    return this.attempt(() => { call(); return 0; }, -1);
  }

  /**
   * The same of a call that answers a count of 64 bits.
   * @param {() => number} call
   */
  counted(call) {
    return this.attempt(() => BigInt(call()), -1n);
  }
}

/**
 * @param {Memory} memory
 * @param {ErrorNumber} error
 * @returns {Functions}
 */
function errors(memory, error) {
  return {
    rattle_errno: () => error.number,
    rattle_set_errno: number => { error.number = number; },
    __xpg_strerror_r: (number, into, room) => {
      const text = new TextEncoder().encode(TEXTS[number] ?? `Unknown error ${number}`);
      memory.putText(into, text.subarray(0, Number(room) - 1));
      return 0;
    },
  };
}

/**
 * The words of the command; there is no environment.
 * @param {Memory} memory
 * @param {string[]} words
 * @returns {Functions}
 */
function commandWords(memory, words) {
  const spelled = words.map(it => new TextEncoder().encode(it));
  return {
    rattle_arg: (index, into, room) => {
      const word = spelled[Number(index)];
      if (!word) return -1n;
      if (word.length > Number(room)) return -2n;
      memory.bytes(into, BigInt(word.length)).set(word);
      return BigInt(word.length);
    },
    rattle_env: () => -1n,
    rattle_env_at: () => -1n,
  };
}

/**
 * What is done with descriptors.
 * @param {Memory} memory
 * @param {ErrorNumber} error
 * @param {Host} host
 * @returns {Functions}
 */
function descriptors(memory, error, host) {
  return {
    close: it => error.done(() => host.close(it)),
    read: (it, into, count) => error.counted(() => host.read(it, memory.bytes(into, count))),
    pread: (it, into, count, at) => error.counted(() => host.readAt(it, memory.bytes(into, count), Number(at))),
    write: (it, from, count) => error.counted(() => host.write(it, memory.bytes(from, count))),
    lseek: (it, by, from) => error.counted(() => host.seek(it, Number(by), from)),
    ftruncate: (it, length) => error.done(() => host.truncate(it, Number(length))),
    fchmod: (it, mode) => error.done(() => host.changeMode(it, mode & 0o7777)),
    fchown: (it, user, group) => error.done(() => host.changeOwner(it, user, group)),
    fsync: it => error.done(() => host.sync(it)),
    fdatasync: it => error.done(() => host.sync(it)),
    // the kit asks for one command alone: a second descriptor of an open file
    fcntl: (it, command) => error.attempt(() => {
      if (command !== DUPLICATE) throw new SystemFault(ERROR.INVALID);
      return host.duplicate(it);
    }, -1),
    isatty: it => {
      if (host.isTerminal(it)) return 1;
      error.number = ERROR.NO_TERMINAL;
      return 0;
    },
  };
}

/**
 * What is done with paths.
 * @param {Memory} memory
 * @param {ErrorNumber} error
 * @param {Host} host
 * @returns {Functions}
 */
function paths(memory, error, host) {
  return {
    // the third argument of `open` is variable: it comes as a pointer to it
    open: (path, flags, more) => error.attempt(() => {
      const mode = flags & FLAG.CREATES ? memory.view(more, 4n).getUint32(0, true) & 0o7777 : 0;
      return host.open(memory.text(path), flags, mode);
    }, -1),
    statx: (folder, path, flags, _mask, into) => error.done(() => {
      const name = memory.text(path), facts = name.length ? host.facts(name, !(flags & NO_FOLLOW)) : host.factsOf(folder);
      memory.bytes(into, STATX.BYTES).fill(0);
      putFacts(memory.view(into, STATX.BYTES), facts);
    }),
    realpath: (path, into) => error.attempt(() => {
      memory.putText(into, host.realPath(memory.text(path)));
      return into;
    }, 0n),
    rename: (from, to) => error.done(() => host.rename(memory.text(from), memory.text(to))),
    link: (from, to) => error.done(() => host.link(memory.text(from), memory.text(to))),
    unlink: path => error.done(() => host.unlink(memory.text(path))),
    // no folder is read, so what a program left that was killed stays
    rattle_open_dir_at: () => error.done(() => { throw new SystemFault(ERROR.NOT_SUPPORTED); }),
    getdents64: () => error.counted(() => { throw new SystemFault(ERROR.NOT_SUPPORTED); }),
  };
}

/**
 * What needs neither: a module has no signals, and no locks of files.
 * @param {Host} host
 * @returns {Functions}
 */
function alone(host) {
  return { getpid: () => host.process(), __sysv_signal: () => 0n, flock: () => 0 };
}

// @ts-check
// A host of files that are names and bytes in memory, for a page: some folders, which have to be told, and no links.

import { Whole } from './image.mjs';
import { ERROR, FLAG, KIND, SystemFault } from './system.mjs';

/** @typedef {import('./system.mjs').FileFacts} FileFacts */

/** @typedef {import('./image.mjs').Image} Image */

/** A file's bytes. Those that a caller gave are never written: the first write makes a copy. */
class MemoryFile {
  mode = 0o644;
  /** @type {Image} */ #image;
  /** @type {Uint8Array} */ #bytes = new Uint8Array(0);
  #length;
  #owned = false;

  /**
   * @param {Uint8Array | Image} given
   * @param {number} number
   */
  constructor(given, number) {
    this.given = given;
    this.#image = given instanceof Uint8Array ? new Whole(given) : given;
    this.#length = given.length;
    this.number = number;
  }

  /** The bytes as they are now. Of a file that was not written it is the very one that was given. */
  get now() { return this.#owned ? this.#bytes.subarray(0, this.#length) : this.given; }

  get length() { return this.#length; }

  /**
   * @param {number} from
   * @param {number} to
   */
  read(from, to) { return this.#owned ? this.#bytes.subarray(from, Math.min(to, this.#length)) : this.#image.read(from, to); }

  /** @param {number} length */
  #reach(length) {
    const held = this.#owned ? this.#bytes.length : this.#image.length;
    if (this.#owned && length <= held) return;
    const bytes = zeros(length > held ? Math.max(length, 2 * held) : held);
    bytes.set(this.read(0, this.#length));
    [this.#bytes, this.#owned] = [bytes, true];
  }

  /** @param {number} length */
  resize(length) {
    this.#reach(length);
    if (length < this.#length) this.#bytes.fill(0, length, this.#length);
    this.#length = length;
  }

  /**
   * @param {number} at
   * @param {Uint8Array} bytes
   */
  write(at, bytes) {
    this.#reach(at + bytes.length);
    this.#bytes.set(bytes, at);
    this.#length = Math.max(this.#length, at + bytes.length);
  }
}

/**
 * So many zero bytes: where the browser has no memory for them, the disk is full.
 * @param {number} length
 */
function zeros(length) {
  try {
    return new Uint8Array(length);
  } catch (thrown) {
    if (!(thrown instanceof RangeError)) throw thrown;
    throw new SystemFault(ERROR.NO_SPACE);
  }
}

/** @typedef {{ file: MemoryFile, at: number, flags: number, isFolder?: boolean }} Opened */

export class MemoryFiles {
  /** @type {Map<string, MemoryFile>} */ #names = new Map();
  /** @type {Map<number, Opened>} */ #opened = new Map();
  /** @type {Uint8Array[][]} */ #printed = [[], [], []];
  #folders;
  #next = 3;

  /**
   * @param {Map<string, Uint8Array | Image>} files
   * @param {Uint8Array} input standard input
   * @param {string[]} [folders]
   */
  constructor(files, input, folders = []) {
    for (const [name, bytes] of files) this.#names.set(plain(name), new MemoryFile(bytes, this.#next++));
    this.#folders = new Set(folders.map(plain));
    this.#opened.set(0, { file: new MemoryFile(input, 1), at: 0, flags: 0 });
    this.#next = Math.max(this.#next, 3);
  }

  /**
   * What was printed on a descriptor, 1 or 2.
   * @param {number} descriptor
   */
  printed(descriptor) { return joined(this.#printed[descriptor]); }

  /** The files as they are now, by name. */
  files() { return new Map([...this.#names].map(([name, file]) => [name, file.now])); }

  // --- The host's part ---

  /**
   * @param {Uint8Array} path
   * @param {number} flags
   * @param {number} mode
   */
  open(path, flags, mode) {
    const name = nameOf(path);
    if (name === '' || this.#folders.has(name)) return this.#openedFolder(flags);
    const there = this.#names.get(name);
    if (there && flags & FLAG.CREATES && flags & FLAG.EXCLUSIVE) throw new SystemFault(ERROR.EXISTS);
    const file = there ?? this.#created(name, flags, mode);
    if (flags & FLAG.TRUNCATES) file.resize(0);
    this.#opened.set(this.#next, { file, at: 0, flags });
    return this.#next++;
  }

  /**
   * A folder is opened to have its names synced, and for nothing else.
   * @param {number} flags
   */
  #openedFolder(flags) {
    if (flags & (FLAG.WRITES | FLAG.CREATES)) throw new SystemFault(ERROR.IS_FOLDER);
    this.#opened.set(this.#next, { file: new MemoryFile(new Uint8Array(0), this.#next), at: 0, flags, isFolder: true });
    return this.#next++;
  }

  /**
   * @param {string} name
   * @param {number} flags
   * @param {number} mode
   */
  #created(name, flags, mode) {
    const folder = name.lastIndexOf('/');
    if (!(flags & FLAG.CREATES) || (folder > 0 && !this.#folders.has(name.slice(0, folder)))) throw new SystemFault(ERROR.NO_ENTRY);
    const file = new MemoryFile(new Uint8Array(0), this.#next++);
    file.mode = mode & 0o777;
    this.#names.set(name, file);
    return file;
  }

  /** @param {number} descriptor */
  duplicate(descriptor) {
    this.#opened.set(this.#next, this.#at(descriptor));
    return this.#next++;
  }

  /** @param {number} descriptor */
  close(descriptor) {
    if (!this.#opened.delete(descriptor)) throw new SystemFault(ERROR.BAD_DESCRIPTOR);
  }

  /**
   * @param {number} descriptor
   * @param {Uint8Array} into
   */
  read(descriptor, into) {
    const it = this.#readable(descriptor), part = it.file.read(it.at, it.at + into.length);
    into.set(part);
    it.at += part.length;
    return part.length;
  }

  /**
   * @param {number} descriptor
   * @param {Uint8Array} into
   * @param {number} at
   */
  readAt(descriptor, into, at) {
    if (at < 0) throw new SystemFault(ERROR.INVALID);
    const part = this.#readable(descriptor).file.read(at, at + into.length);
    into.set(part);
    return part.length;
  }

  /**
   * @param {number} descriptor
   * @param {Uint8Array} from
   */
  write(descriptor, from) {
    if (descriptor === 1 || descriptor === 2) {
      this.#printed[descriptor].push(from.slice());
      return from.length;
    }
    const it = this.#at(descriptor);
    if (!(it.flags & FLAG.WRITES)) throw new SystemFault(ERROR.BAD_DESCRIPTOR);
    if (it.flags & FLAG.APPENDS) it.at = it.file.length;
    it.file.write(it.at, from);
    it.at += from.length;
    return from.length;
  }

  /**
   * @param {number} descriptor
   * @param {number} by
   * @param {number} from of the beginning, of where it stands, of the end
   */
  seek(descriptor, by, from) {
    if (descriptor <= 2) throw new SystemFault(ERROR.NO_SEEK);
    const it = this.#at(descriptor), to = by + [0, it.at, it.file.length][from];
    if (!(to >= 0)) throw new SystemFault(ERROR.INVALID);
    it.at = to;
    return to;
  }

  /**
   * What is open and has bytes to read.
   * @param {number} descriptor
   */
  #readable(descriptor) {
    const it = this.#at(descriptor);
    if (it.isFolder) throw new SystemFault(ERROR.IS_FOLDER);
    return it;
  }

  /** @param {Uint8Array} path */
  facts(path) {
    const name = nameOf(path);
    return this.#folders.has(name) ? factsOf(KIND.FOLDER | 0o755) : this.#regular(this.#named(name));
  }

  /** @param {number} descriptor */
  factsOf(descriptor) {
    if (descriptor <= 2) return factsOf(KIND.PIPE | 0o600);
    const it = this.#at(descriptor);
    return it.isFolder ? factsOf(KIND.FOLDER | 0o755) : this.#regular(it.file);
  }

  /**
   * @param {MemoryFile} file
   * @returns {FileFacts}
   */
  #regular(file) {
    const links = [...this.#names.values()].filter(it => it === file).length;
    return { ...factsOf(KIND.REGULAR | file.mode), length: file.length, links, number: BigInt(file.number) };
  }

  /** @param {Uint8Array} path */
  realPath(path) {
    const name = nameOf(path);
    if (!this.#folders.has(name)) this.#named(name);
    return new TextEncoder().encode(name);
  }

  /**
   * @param {Uint8Array} from
   * @param {Uint8Array} to
   */
  rename(from, to) {
    const [old, name] = [nameOf(from), nameOf(to)], file = this.#named(old);
    if (old === name) return;
    this.#names.set(name, file);
    this.#names.delete(old);
  }

  /**
   * @param {Uint8Array} from
   * @param {Uint8Array} to
   */
  link(from, to) {
    const [old, name] = [nameOf(from), nameOf(to)], file = this.#named(old);
    if (this.#names.has(name)) throw new SystemFault(ERROR.EXISTS);
    this.#names.set(name, file);
  }

  /** @param {Uint8Array} path */
  unlink(path) {
    if (!this.#names.delete(nameOf(path))) throw new SystemFault(ERROR.NO_ENTRY);
  }

  /**
   * @param {number} descriptor
   * @param {number} length
   */
  truncate(descriptor, length) { this.#at(descriptor).file.resize(length); }

  /**
   * @param {number} descriptor
   * @param {number} mode
   */
  changeMode(descriptor, mode) { this.#at(descriptor).file.mode = mode; }

  /** @param {number} descriptor */
  changeOwner(descriptor) { this.#at(descriptor); }

  /** @param {number} descriptor */
  sync(descriptor) { this.#at(descriptor); }

  isTerminal() { return false; }

  process() { return 1; }

  /** @param {number} descriptor */
  #at(descriptor) {
    const it = this.#opened.get(descriptor);
    if (!it) throw new SystemFault(ERROR.BAD_DESCRIPTOR);
    return it;
  }

  /** @param {string} name */
  #named(name) {
    const it = this.#names.get(name);
    if (!it) throw new SystemFault(ERROR.NO_ENTRY);
    return it;
  }
}

/**
 * @param {number} mode
 * @returns {FileFacts}
 */
function factsOf(mode) {
  return { mode, length: 0, links: 1, number: 1n, device: 1, user: 0, group: 0 };
}

/**
 * A name without the words for its own folder.
 * @param {string} name
 */
function plain(name) {
  return name.split('/').filter((it, place) => it !== '.' && (it !== '' || place === 0)).join('/');
}

/** @param {Uint8Array} path */
function nameOf(path) { return plain(new TextDecoder().decode(path)); }

/** @param {Uint8Array[]} parts */
function joined(parts) {
  const all = new Uint8Array(parts.reduce((sum, it) => sum + it.length, 0));
  let at = 0;
  for (const part of parts) {
    all.set(part, at);
    at += part.length;
  }
  return all;
}

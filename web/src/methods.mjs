// @ts-check
// All that the page asks, as methods over numbers of opened volumes and decks: so that they can stand behind messages (worker.mjs).

import { Fault } from './fault.mjs';
import { faultOf } from './deck.mjs';
import { imageFrom, weightOf } from './image.mjs';
import { Subsystem } from './library.mjs';
import { Program, textOf } from './program.mjs';
import { Stepper } from './stepper.mjs';
import { Volumes } from './volume.mjs';
import { assemble, disassemble } from './words.mjs';

/** @typedef {import('./volume.mjs').Files} Files */
/** @typedef {import('./volume.mjs').Look} Look */
/** @typedef {import('./stepper.mjs').Moment} Moment */
/** @typedef {{ at: number, length: number }[]} Ranges of storage */
/**
 * A drive of a deck: a volume that is open here, or a new one.
 * @typedef {{ address: number, volume: number } | { address: number, model: number, cylinders: number }} OpenDrive
 */
/** @typedef {{ volume: number, look: Look }} Opened */

export class Methods {
  #modules;
  #program;
  #volumes;
  #number = 0;
  /** @type {Map<number, Map<string, import('./image.mjs').Image>>} */ #files = new Map();
  /** @type {Map<number, Stepper>} */ #decks = new Map();

  /** @param {{ program: WebAssembly.Module, library: WebAssembly.Module }} modules */
  constructor(modules) {
    this.#modules = modules;
    this.#program = new Program(modules.program);
    this.#volumes = new Volumes(this.#program);
  }

  /** The version of the library: major, minor, patch. */
  version() {
    const number = new Subsystem(this.#modules.library, 4096, 0).version();
    return `${number >> 16}.${number >> 8 & 255}.${number & 255}`;
  }

  // --- Volumes ---

  /**
   * Takes the files of an image, a large one of which is read in slices.
   * @param {Map<string, Uint8Array | Blob | import('./image.mjs').Image>} given
   * @returns {Opened}
   */
  open(given) {
    const files = new Map([...given].map(([name, it]) => [name, imageFrom(it, name)]));
    const look = this.#volumes.look(files), volume = ++this.#number;
    this.#files.set(volume, files);
    return { volume, look };
  }

  /**
   * What a volume is that is open already.
   * @param {number} volume
   */
  look(volume) { return this.#volumes.look(this.#of(volume)); }

  /**
   * How many bytes volumes hold in memory together, and others beside them don't.
   * @param {number[]} volumes
   * @param {number[]} [beside]
   */
  weigh(volumes, beside = []) {
    const images = (/** @type {number[]} */ numbers) => numbers.flatMap(it => [...this.#of(it).values()]);
    return weightOf(images(volumes), images(beside));
  }

  /**
   * A new volume in one file.
   * @param {number} model
   * @param {number} cylinders
   * @param {string} [name]
   * @returns {Opened}
   */
  format(model, cylinders, name = 'new.ckd') { return this.open(new Map([[name, this.#volumes.format(model, cylinders)]])); }

  /** @param {number} volume */
  close(volume) {
    this.#files.delete(volume);
    return null;
  }

  /**
   * The files of a volume, to be saved.
   * @param {number} volume
   */
  files(volume) { return new Map([...this.#of(volume)].map(([name, it]) => [name, it.saved()])); }

  /**
   * @param {number} volume
   * @param {number} cylinder
   * @param {number} head
   * @param {number} [record]
   */
  dump(volume, cylinder, head, record) { return this.#volumes.dump(this.#of(volume), cylinder, head, record); }

  /** @param {number} volume */
  members(volume) { return this.#volumes.members(this.#of(volume)); }

  /**
   * @param {number} volume
   * @param {string} name
   * @param {{ text: boolean }} how
   */
  extract(volume, name, how) { return this.#volumes.extract(this.#of(volume), name, how); }

  /**
   * @param {number} volume
   * @param {{ text: boolean }} how
   */
  archive(volume, how) { return this.#volumes.archive(this.#of(volume), how); }

  /**
   * @param {number} volume
   * @param {string} text
   */
  search(volume, text) { return this.#volumes.search(this.#of(volume), text); }

  /**
   * @param {number} volume
   * @param {number} other
   */
  compare(volume, other) { return this.#volumes.compare(this.#of(volume), this.#of(other)); }

  /**
   * @param {'csw' | 'sense' | 'ccw'} kind
   * @param {string} digits
   */
  explain(kind, digits) { return this.#volumes.explain(kind, digits); }

  // --- Decks ---

  /**
   * The first line of a deck that is wrong, or null.
   * @param {string} text
   */
  deckFault(text) { return faultOf(this.#program, text); }

  /**
   * The deck of a text in words, or what is wrong with it.
   * @param {string} text
   */
  assemble(text) { return assemble(this.#program, text); }

  /**
   * A deck in words, or what is wrong with it.
   * @param {string} deck
   */
  disassemble(deck) { return disassemble(this.#program, deck); }

  /** The forms of a deck's events, as `dasd run --help` has them. */
  forms() { return textOf(this.#program.run(['run', '--help']).output); }

  /**
   * Plays a deck to its end.
   * @param {{ text: string, storage: number, drives: OpenDrive[], channel?: number }} deck
   */
  play(deck) {
    const drives = deck.drives.map(it => ('volume' in it ? { address: it.address, files: this.#of(it.volume) } : it));
    const stepper = new Stepper(this.#modules, { ...deck, drives }), number = ++this.#number;
    this.#decks.set(number, stepper);
    const events = stepper.events.map(({ stored: _, words: __, ...event }) => event), { trace, isTraced, disagreement } = stepper;
    return { deck: number, events, trace, isTraced, disagreement, changed: stepper.changed() };
  }

  /**
   * Goes to a moment of a deck.
   * @param {number} deck
   * @param {Moment} moment
   * @param {Ranges} [ranges]
   */
  step(deck, moment, ranges) { return this.#deck(deck).go(moment, ranges); }

  /**
   * Goes a step from a moment.
   * @param {number} deck
   * @param {Moment} from
   * @param {'event' | 'word' | 'unit'} by
   * @param {1 | -1} way
   * @param {Ranges} [ranges]
   */
  next(deck, from, by, way, ranges) {
    const stepper = this.#deck(deck);
    return stepper.go(stepper.next(from, by, way), ranges);
  }

  /**
   * The volume that a deck left of a drive, opened.
   * @param {number} deck
   * @param {number} address
   * @returns {Opened}
   */
  left(deck, address) { return this.open(this.#deck(deck).left(address)); }

  /** @param {number} deck */
  forget(deck) {
    this.#decks.delete(deck);
    return null;
  }

  /** @param {number} volume */
  #of(volume) {
    const files = this.#files.get(volume);
    if (!files) throw new Fault('BAD_REQUEST', `no volume ${volume} is open`);
    return files;
  }

  /** @param {number} deck */
  #deck(deck) {
    const stepper = this.#decks.get(deck);
    if (!stepper) throw new Fault('BAD_REQUEST', `no deck ${deck} is open`);
    return stepper;
  }
}

/** What may be asked for by name. */
export const METHODS = new Set([
  'version', 'open', 'look', 'weigh', 'format', 'close', 'files', 'dump', 'members', 'extract', 'archive', 'search', 'compare', 'explain',
  'deckFault', 'assemble', 'disassemble', 'forms', 'play', 'step', 'next', 'left', 'forget',
]);

// @ts-check
// A deck and its steps: forwards and back, by event, by word and by unit. The library plays it; the program says its trace. To go back, the
// library is set to what it was before the first event, and plays all events up to there again: the same calls over the same bytes.

import { channelsOf, eventsOf, faultOf, hexOf, play, unitsOf, withoutChannels } from './deck.mjs';
import { Fault } from './fault.mjs';
import { imageAfter, imageFrom } from './image.mjs';
import { Subsystem } from './library.mjs';
import { Program } from './program.mjs';
import { compareMoments, differences, fineDeck, momentBehind, timed, traced, woven } from './tracing.mjs';

/** @typedef {import('./tracing.mjs').Moment} Moment */
/** @typedef {import('./tracing.mjs').TraceLine} TraceLine */
/**
 * An event with what came of it.
 * @typedef {import('./tracing.mjs').Played} PlayedEvent
 */
/**
 * What a deck runs over. A drive's image is files or a new volume; its address has the channel's number, as 0x190.
 * @typedef {{ address: number, files: import('./volume.mjs').Files } | { address: number, model: number, cylinders: number }} DeckDrive
 * @typedef {{ text: string, storage: number, drives: DeckDrive[], channel?: number }} Deck channel: that of the first drive, or else 1
 */
/**
 * @typedef {object} DriveAt
 * @property {number} address
 * @property {number} model
 * @property {number} cylinders
 * @property {number} cylinder
 * @property {number} head
 * @property {'at rest' | 'in motion' | 'arrived'} arm
 * @property {string} sense twelve digits
 */
/**
 * @typedef {object} ChannelAt
 * @property {number} number
 * @property {'available' | 'working' | 'ended'} subchannel
 * @property {number | null} device its address, where it works or ended
 * @property {boolean} asked a word asked for an interruption that is not taken
 * @property {boolean} pending
 * @property {DriveAt[]} drives
 */
/**
 * The channel status word at 64.
 * @typedef {{ key: number, address: number, unitStatus: number, channelStatus: number, count: number, digits: string }} Csw
 */
/**
 * The channel address word at 72.
 * @typedef {{ key: number, address: number, digits: string }} Caw
 */
/**
 * Bytes of storage; `changed`: the places in them that are others than at the state that was shown last.
 * @typedef {{ at: number, bytes: Uint8Array, changed: number[] }} Shown
 */
/**
 * @typedef {object} State
 * @property {Moment} at
 * @property {number} units that the event at `at` did in the whole
 * @property {string} answer of the event before, or empty
 * @property {ChannelAt[]} channels
 * @property {Csw} csw
 * @property {Caw} caw
 * @property {Shown[]} storage
 * @property {number} traceLines how many lines of the trace are there by now
 * @property {number | null} running the line of the trace, still to come, of the word that is at work
 */

const SUBCHANNELS = /** @type {const} */ (['available', 'working', 'ended']);
const ARMS = /** @type {const} */ (['at rest', 'in motion', 'arrived']);

export class Stepper {
  /** @type {PlayedEvent[]} */ events = [];
  /** @type {TraceLine[]} */ trace = [];
  /** Whether the trace goes to the end of the deck: it goes as far as some 140,000 units. */
  isTraced = true;
  /**
   * Where the program's answers are others than the library's: the proved code behind both is the same, so this is never seen.
   * @type {string | null}
   */
  disagreement = null;

  #modules;
  #deck;
  #channels;
  /** @type {Subsystem} */ #library;
  /** @type {Uint8Array | null} */ #start = null;
  /**
   * The number of changes of each file before the first event.
   * @type {Map<string, bigint>}
   */
  #changes = new Map();
  /** @type {Moment} */ #at = { event: 0, unit: 0 };
  /** The deck is over, and its channels are reset. */
  #isReset = false;
  /** @type {Uint8Array | null} */ #shown = null;

  /**
   * The deck played to its end. REFUSED with the program's words where it is refused.
   * @param {{ program: WebAssembly.Module, library: WebAssembly.Module }} modules
   * @param {Deck} deck
   */
  constructor(modules, deck) {
    this.#modules = modules;
    this.#deck = deck;
    const program = new Program(modules.program), fault = faultOf(program, deck.text);
    if (fault) throw new Fault('REFUSED', `line ${fault.number + 1}: ${fault.text}`);
    const first = deck.channel ?? (deck.drives.length ? deck.drives[0].address >> 8 : 1), events = eventsOf(deck.text, first);
    const isPlain = withoutChannels(deck.text) === deck.text, own = deck.drives.map(it => it.address >> 8);
    this.#channels = [...new Set([first, ...own, ...(isPlain ? [] : channelsOf(events).filter(it => it <= 6))])].sort();
    this.#library = this.#begun();
    this.#play(events);
    this.#trace(program, first);
  }

  /** A library before the first event, and what it holds then, where there is memory for that. */
  #begun() {
    const library = new Subsystem(this.#modules.library, this.#deck.storage, ...this.#channels);
    for (const drive of this.#deck.drives) {
      if ('files' in drive) library.attach(drive.address, [...drive.files].map(([name, it]) => imageFrom(it, name).all()));
      else library.attachNew(drive.address, drive.model, drive.cylinders);
      namesOf(drive).forEach((_, place) => this.#changes.set(`${drive.address} ${place}`, library.changes(drive.address, place)));
    }
    try {
      this.#start = library.checkpoint();
    } catch (fault) {
      if (!(fault instanceof RangeError)) throw fault;
      this.#start = null;
    }
    return library;
  }

  /** @param {import('./deck.mjs').DeckEvent[]} events */
  #play(events) {
    let before = this.#library.storage().slice();
    for (const event of events) {
      const answer = play(this.#library, event) ?? '', isStep = event.name === 'STEP' || event.name === 'RUN';
      const isOutside = this.#channels.length > 1, after = isOutside ? this.#library.storage().slice() : before;
      const stored = isOutside ? differences(before, after) : [];
      this.events.push({ ...event, answer, units: isStep ? Number(answer.split(' ')[1]) : 0, stored });
      before = after;
    }
    this.#at = { event: events.length, unit: 0 };
  }

  // The program runs each channel's deck; its answers are compared with the library's.
  /**
   * @param {Program} program
   * @param {number} first events of a channel that is not there are the first one's
   */
  #trace(program, first) {
    const lines = [], { storage, drives } = this.#deck;
    let reached = this.events.length;
    for (const channel of this.#channels) {
      const isOwn = (/** @type {{ channel: number }} */ { channel: its }) => (this.#channels.includes(its) ? its : first) === channel;
      const deck = fineDeck(this.events, isOwn), own = drives.filter(it => it.address >> 8 === channel);
      const said = traced(program, deck, { channel, storage, drives: own });
      lines.push(timed(said.trace, deck.marks));
      if (!deck.isWhole) {
        this.isTraced = false;
        reached = Math.min(reached, deck.marks.length ? deck.marks[deck.marks.length - 1].event : 0);
      }
      this.disagreement ??= differing(this.events.slice(0, reached).filter(isOwn), said.answers);
    }
    this.trace = woven(lines, this.events, reached);
  }

  // The end of a run: the deck is over, and each channel is reset, which cuts what still runs and saves its track.
  #end() {
    this.#reach({ event: this.events.length, unit: 0 });
    if (!this.#isReset) this.#channels.forEach(it => this.#library.reset(it));
    this.#isReset = true;
  }

  /**
   * The files that the deck left of a drive, those of a volume that was there before it by what it changed in them.
   * @param {number} address
   * @returns {import('./volume.mjs').Files}
   */
  left(address) {
    this.#end();
    const drive = this.#deck.drives.find(it => it.address === address);
    if (!drive) throw Fault.of(-11);
    return new Map(namesOf(drive).map((name, place) => {
      const now = this.#library.file(address, place), before = 'files' in drive && drive.files.get(name);
      return [name, before ? imageAfter(imageFrom(before, name), now) : now];
    }));
  }

  /**
   * The addresses of the drives whose volumes the deck wrote, be it with the bytes that stood there.
   * @returns {number[]}
   */
  changed() {
    this.#end();
    return this.#deck.drives.filter(drive => namesOf(drive).some((_, place) =>
      this.#library.changes(drive.address, place) !== this.#changes.get(`${drive.address} ${place}`))).map(it => it.address);
  }

  /**
   * The moment that is a step away from another.
   * @param {Moment} from
   * @param {'event' | 'word' | 'unit'} by
   * @param {1 | -1} way
   * @returns {Moment}
   */
  next(from, by, way) {
    const end = { event: this.events.length, unit: 0 }, units = this.events[from.event]?.units ?? 0;
    if (by === 'word') {
      const at = this.trace.filter(it => it.kind === 'word' && compareMoments(it.at, from) * way > 0).map(it => it.at);
      return way > 0 ? at[0] ?? end : at[at.length - 1] ?? { event: 0, unit: 0 };
    }
    if (way > 0 && from.event >= end.event) return end;
    if (way > 0) return by === 'unit' ? momentBehind(from.event, from.unit + 1, units) : { event: from.event + 1, unit: 0 };
    if (from.unit > 0) return { event: from.event, unit: by === 'unit' ? from.unit - 1 : 0 };
    if (from.event === 0) return from;
    const before = this.events[from.event - 1].units;
    return { event: from.event - 1, unit: by === 'unit' && before > 1 ? before - 1 : 0 };
  }

  /**
   * Goes to a moment, and shows what is there.
   * @param {Moment} moment
   * @param {{ at: number, length: number }[]} [ranges] of storage
   * @returns {State}
   */
  go(moment, ranges = []) {
    const at = this.#within(moment);
    this.#reach(at);
    const storage = this.#library.storage().slice(), before = this.#shown ?? storage;
    this.#shown = storage;
    const there = this.trace.findIndex(it => compareMoments(it.at, at) > 0), traceLines = there < 0 ? this.trace.length : there;
    const channels = this.#channels.map(it => this.#channelAt(it));
    return {
      at, units: this.events[at.event]?.units ?? 0, answer: at.event && !at.unit ? this.events[at.event - 1].answer : '',
      channels, csw: cswFrom(storage), caw: cawFrom(storage), storage: ranges.map(it => shown(storage, before, it)), traceLines,
      running: channels.some(it => it.subchannel === 'working') ? this.#running(at) : null,
    };
  }

  /** @param {Moment} at */
  #running(at) {
    const line = this.trace.findIndex(it => it.kind === 'word' && (compareMoments(it.at, at) > 0 || /still runs$/.test(it.text)));
    return line < 0 ? null : line;
  }

  /**
   * A moment of this deck: whole units of an event are the moment before the next one.
   * @param {Moment} moment
   * @returns {Moment}
   */
  #within({ event, unit }) {
    if (event >= this.events.length) return { event: this.events.length, unit: 0 };
    return unit > 0 ? momentBehind(Math.max(event, 0), unit, this.events[event].units) : { event: Math.max(event, 0), unit: 0 };
  }

  /**
   * Brings the library to a moment.
   * @param {Moment} to
   */
  #reach(to) {
    if (this.#isReset || compareMoments(this.#at, to) > 0) this.#restart();
    while (this.#at.event < to.event) {
      const event = this.events[this.#at.event];
      if (this.#at.unit) this.#library.runOn(event.channel, unitsOf(event) - this.#at.unit);
      else play(this.#library, event);
      this.#at = { event: this.#at.event + 1, unit: 0 };
    }
    if (to.unit > this.#at.unit) this.#library.runOn(this.events[to.event].channel, to.unit - this.#at.unit);
    this.#at = to;
  }

  #restart() {
    if (this.#start) this.#library.restore(this.#start);
    else this.#library = this.#begun();
    this.#at = { event: 0, unit: 0 };
    this.#isReset = false;
  }

  /**
   * @param {number} number
   * @returns {ChannelAt}
   */
  #channelAt(number) {
    const { subchannel, device, asked, units } = this.#library.channel(number);
    const drives = units.map(unit => {
      const address = number << 8 | unit, { arm, sense, ...rest } = this.#library.drive(address);
      return { address, ...rest, arm: ARMS[arm], sense: hexOf(sense) };
    });
    const at = subchannel ? number << 8 | device : null, pending = this.#library.isPending(number);
    return { number, subchannel: SUBCHANNELS[subchannel], device: at, asked, pending, drives };
  }
}

/**
 * The first answer that the program gives otherwise, in words. Its deck has STEP 1 for a step's units, which have no answer of the deck's.
 * @param {PlayedEvent[]} events
 * @param {string[]} answers
 */
function differing(events, answers) {
  const own = answers.filter(it => !/^(STEP [01]|STORE OK|STORE OUTSIDE|KEY \w+)$/.test(it));
  const wanted = events.filter(it => !['STEP', 'RUN', 'STORE', 'KEY'].includes(it.name)).map(it => it.answer);
  const place = wanted.findIndex((it, at) => it !== own[at]);
  return place < 0 ? null : `the library answers ${wanted[place]}, and the program ${own[place] ?? 'nothing'}`;
}

/**
 * @param {Uint8Array} storage
 * @returns {Csw}
 */
function cswFrom(storage) {
  const [first, a, b, c, unitStatus, channelStatus, high, low] = storage.subarray(64, 72);
  const digits = hexOf(storage.subarray(64, 72));
  return { key: first >> 4, address: a << 16 | b << 8 | c, unitStatus, channelStatus, count: high << 8 | low, digits };
}

/**
 * @param {Uint8Array} storage
 * @returns {Caw}
 */
function cawFrom(storage) {
  const [first, a, b, c] = storage.subarray(72, 76);
  return { key: first >> 4, address: a << 16 | b << 8 | c, digits: hexOf(storage.subarray(72, 76)) };
}

/**
 * @param {Uint8Array} storage
 * @param {Uint8Array} before
 * @param {{ at: number, length: number }} range
 * @returns {Shown}
 */
function shown(storage, before, { at, length }) {
  const bytes = storage.slice(at, at + length);
  return { at, bytes, changed: Array.from(bytes.keys()).filter(place => bytes[place] !== before[at + place]) };
}

/**
 * The names of a drive's files.
 * @param {DeckDrive} drive
 */
function namesOf(drive) { return 'files' in drive ? [...drive.files.keys()] : ['new.ckd']; }

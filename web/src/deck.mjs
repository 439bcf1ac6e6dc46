// @ts-check
// Decks: their events, what is wrong in a line, and an event played at the library, answered by the line that docs/DECKS.md has.
//
// A page's deck may have one word more than `dasd run` knows: a line `CHANNEL n`. It says of which channel the events TCH, STEP, RUN, INT
// and RESET behind it are, which name none: of a deck without such a line, of the channel of its first drive.

import { faultText } from './program.mjs';

/**
 * `number` is the line's place in the text, from 0; `channel` is that of the event.
 * @typedef {{ number: number, line: string, name: string, words: string[], channel: number }} DeckEvent
 */

/** What a RUN without a number allows. */
const RUN_UNITS = 16777216;
const CSW = 64;

/**
 * A number in hexadecimal digits.
 * @param {number} number
 * @param {number} digits
 */
export function hex(number, digits) { return number.toString(16).toUpperCase().padStart(digits, '0'); }

/** @param {ArrayLike<number>} bytes */
export function hexOf(bytes) { return Array.from(bytes, it => hex(it, 2)).join(''); }

/** @param {string} digits */
export function bytesOf(digits) { return Uint8Array.from(digits.match(/../g) ?? [], it => parseInt(it, 16)); }

/**
 * The lines of a deck that are neither empty nor a remark.
 * @param {string} text
 * @param {number} [channel] of events before a line CHANNEL
 * @returns {DeckEvent[]}
 */
export function eventsOf(text, channel = 1) {
  /** @type {DeckEvent[]} */
  const events = [];
  text.split('\n').forEach((whole, number) => {
    const line = whole.replace(/\r$/, '').replace(/^[ \t]+|[ \t]+$/g, '');
    if (!line || line.startsWith('*')) return;
    const words = line.split(/[ \t]+/), name = words[0].toUpperCase();
    if (name === 'CHANNEL') channel = Number(words[1]);
    else events.push({ number, line, name, words, channel: channelOf(name, words, channel) });
  });
  return events;
}

/**
 * @param {string} name
 * @param {string[]} words
 * @param {number} channel
 */
function channelOf(name, words, channel) {
  return ['SIO', 'TIO', 'HIO', 'ARRIVE'].includes(name) ? parseInt(words[1], 16) >> 8 : channel;
}

/**
 * The text with its lines CHANNEL as remarks, which the program passes over.
 * @param {string} text
 */
export function withoutChannels(text) { return text.replace(/^([ \t]*)CHANNEL([ \t]+[0-6][ \t]*\r?)$/gim, '*CHANNEL$2'); }

/**
 * A deck's bytes: a character of U+0080 to U+00FF is the byte of its number, where there is none above them.
 * @param {string} text
 */
export function deckBytes(text) {
  return /^[\0-\xFF]*$/.test(text) ? Uint8Array.from(text, it => it.charCodeAt(0)) : new TextEncoder().encode(text);
}

/**
 * The channels of a deck's events.
 * @param {DeckEvent[]} events
 */
export function channelsOf(events) { return [...new Set(events.map(it => it.channel))].sort(); }

/**
 * How many units an event allows: STEP and RUN alone do.
 * @param {DeckEvent} event
 */
export function unitsOf({ name, words }) {
  if (name === 'STEP') return Number(words[1]);
  return name === 'RUN' ? Number(words[1] ?? RUN_UNITS) : 0;
}

/**
 * The first line of a deck that is wrong, by the program's words, or null. Nothing is run: a last line is added that is wrong in any case,
 * and a faulty deck is refused whole.
 * @param {import('./program.mjs').Program} program
 * @param {string} text
 * @returns {{ number: number, text: string } | null}
 */
export function faultOf(program, text) {
  const whole = withoutChannels(text) + '\n', last = whole.split('\n').length;
  const ended = program.run(['run', '90=new:2311:1'], new Map(), deckBytes(whole + '?\n'));
  const said = faultText(ended), found = /^line (\d+): (.*)$/.exec(said);
  if (!found) return { number: 0, text: said };
  return Number(found[1]) === last ? null : { number: Number(found[1]) - 1, text: found[2] };
}

/**
 * Plays an event at the library, and answers its line; null where there is no such event.
 * @param {import('./library.mjs').Subsystem} library
 * @param {DeckEvent} event
 */
export function play(library, event) {
  const { name, words, channel } = event, unit = parseInt(words[1], 16);
  switch (name) {
    case 'SIO': return instruction(library, name, unit, library.sio(unit));
    case 'HIO': return instruction(library, name, unit, library.hio(unit));
    case 'TIO': return instruction(library, name, unit, library.tio(unit));
    case 'TCH': return `TCH CC ${library.tch(channel << 8)}`;
    case 'STEP': case 'RUN': return `${name} ${library.runOn(channel, unitsOf(event)).units}`;
    case 'ARRIVE': return `ARRIVE ${hex(unit, 3)} ${library.arrive(unit) ? 'YES' : 'NO'}`;
    case 'INT': return interruption(library, channel);
    case 'RESET': return reset(library, channel);
    default: return storing(library, event, unit);
  }
}

/**
 * @param {import('./library.mjs').Subsystem} library
 * @param {string} name
 * @param {number} unit
 * @param {number} code
 */
function instruction(library, name, unit, code) {
  const head = `${name} ${hex(unit, 3)} CC ${code}`;
  if (code !== 1) return head;
  return name === 'TIO' ? `${head} ${cswOf(library)}` : `${head} ${hexOf(library.peek(CSW + 4, 2))}`;
}

/**
 * The channel status word, as two groups of digits.
 * @param {import('./library.mjs').Subsystem} library
 */
function cswOf(library) {
  const digits = hexOf(library.peek(CSW, 8));
  return `${digits.slice(0, 8)} ${digits.slice(8)}`;
}

/**
 * @param {import('./library.mjs').Subsystem} library
 * @param {number} channel
 */
function interruption(library, channel) {
  const address = library.interrupt(channel);
  return address === null ? 'INT NONE' : `INT ${hex(address, 3)} ${cswOf(library)}`;
}

/**
 * @param {import('./library.mjs').Subsystem} library
 * @param {number} channel
 */
function reset(library, channel) {
  const track = library.reset(channel);
  return track ? `RESET UNSAVED ${hex(track.address, 3)} ${hex(track.cylinder, 4)} ${hex(track.head, 4)}` : 'RESET CLEAN';
}

/**
 * @param {import('./library.mjs').Subsystem} library
 * @param {DeckEvent} event
 * @param {number} at
 */
function storing(library, { name, words }, at) {
  switch (name) {
    case 'STORE': return within(name, () => { library.poke(at, bytesOf(words.slice(2).join(''))); return 'STORE OK'; });
    case 'KEY': return within(name, () => { library.setKey(at, parseInt(words[2], 16)); return 'KEY OK'; });
    case 'SHOW': return within(name, () => `SHOW ${hex(at, 6)} ${hexOf(library.peek(at, Number(words[2])))}`);
    default: return null;
  }
}

/**
 * What a call answers, or OUTSIDE where a byte of it lies outside storage.
 * @param {string} name
 * @param {() => string} call
 */
function within(name, call) {
  try {
    return call();
  } catch (fault) {
    if (/** @type {Error} */ (fault).name !== 'OUTSIDE_STORAGE') throw fault;
    return `${name} OUTSIDE`;
  }
}

// @ts-check
// The trace of a deck with the moment of each line. `dasd run --trace-to` says which lines there are; when each of them came is seen by a
// deck that is cut finer: a STEP 1 stands there for each unit that was done, and a STEP 0 behind each other event, whose lines in the
// trace are marks.
//
// The program runs one channel. Of a deck with several, each is run by itself, and what the others stored stands there as STORE: to the
// program of one channel, what the others store is a change from outside between two of its units (c/dasd.h, 'SEVERAL CHANNELS').

import { deckBytes, hex, hexOf } from './deck.mjs';
import { refusal, textOf } from './program.mjs';

/** @typedef {import('./deck.mjs').DeckEvent} DeckEvent */
/**
 * A moment: before event `event`, or so many units into it where it is a STEP or RUN.
 * @typedef {{ event: number, unit: number }} Moment
 */
/**
 * A line of the trace, and the first moment at which it is there.
 * @typedef {{ text: string, at: Moment, kind: 'event' | 'word' | 'remark' }} TraceLine
 */
/**
 * An event as it was played: its answer, the units that it did, and what its channel stored in storage meanwhile.
 * @typedef {DeckEvent & { answer: string, units: number, stored: { at: number, bytes: Uint8Array }[] }} Played
 */
/**
 * The deck of one channel for the program, and the moment behind each of its marks.
 * @typedef {{ text: string, marks: Moment[], isWhole: boolean }} FineDeck
 */

/** A deck has 1,048,576 bytes at most (docs/DECKS.md). */
const DECK_BYTES = 1_000_000;
/** A STORE has 128 bytes at most. */
const STORE_BYTES = 128;

/**
 * The moment behind an event's unit: where it is its last, the next event's.
 * @param {number} event
 * @param {number} unit
 * @param {number} units
 * @returns {Moment}
 */
export function momentBehind(event, unit, units) { return unit < units ? { event, unit } : { event: event + 1, unit: 0 }; }

/**
 * @param {Moment} one
 * @param {Moment} other
 */
export function compareMoments(one, other) { return one.event - other.event || one.unit - other.unit; }

/**
 * The lines of a fine deck for one event, with the moments behind their marks.
 * @param {Played} event
 * @param {number} number
 * @param {boolean} isOwn whether it is of the deck's channel
 */
function linesFor(event, number, isOwn) {
  const marks = [{ event: number + 1, unit: 0 }];
  if (['STORE', 'KEY'].includes(event.name)) return { lines: [event.line, 'STEP 0'], marks };
  if (!isOwn) return { lines: [...event.stored.flatMap(storesOf), 'STEP 0'], marks };
  if (event.name !== 'STEP' && event.name !== 'RUN') return { lines: [event.line, 'STEP 0'], marks };
  if (event.units === 0) return { lines: ['STEP 0'], marks };
  const units = Array.from({ length: event.units }, (_, unit) => momentBehind(number, unit + 1, event.units));
  return { lines: units.map(() => 'STEP 1'), marks: units };
}

/** @param {{ at: number, bytes: Uint8Array }} stored */
function storesOf({ at, bytes }) {
  const lines = [];
  for (let from = 0; from < bytes.length; from += STORE_BYTES) {
    lines.push(`STORE ${hex(at + from, 1)} ${hexOf(bytes.subarray(from, from + STORE_BYTES))}`);
  }
  return lines;
}

/**
 * The deck of one channel, cut finely: as much of it as a deck may have.
 * @param {Played[]} events
 * @param {(event: DeckEvent) => boolean} isOwn
 * @returns {FineDeck}
 */
export function fineDeck(events, isOwn) {
  /** @type {string[]} */ const lines = [];
  /** @type {Moment[]} */ const marks = [];
  let bytes = 0;
  for (const [number, event] of events.entries()) {
    if (event.units * 'STEP 1\n'.length > DECK_BYTES) return { text: lines.join('\n') + '\n', marks, isWhole: false };
    const more = linesFor(event, number, isOwn(event)), length = more.lines.reduce((sum, it) => sum + it.length + 1, 0);
    if (bytes + length > DECK_BYTES) return { text: lines.join('\n') + '\n', marks, isWhole: false };
    bytes += length;
    lines.push(...more.lines);
    marks.push(...more.marks);
  }
  return { text: lines.join('\n') + '\n', marks, isWhole: true };
}

/**
 * @param {string} text
 * @returns {TraceLine['kind']}
 */
function kindOf(text) {
  if (!text.startsWith(' ')) return 'event';
  return /^ [0-9A-F]{6} /.test(text) ? 'word' : 'remark';
}

/**
 * The lines of a fine deck's trace with their moments; the marks are gone. Behind the last one stands what still runs.
 * @param {string} trace
 * @param {Moment[]} marks
 * @returns {TraceLine[]}
 */
export function timed(trace, marks) {
  const last = marks[marks.length - 1] ?? { event: 0, unit: 0 };
  /** @type {TraceLine[]} */
  const lines = [];
  let mark = 0;
  for (const text of trace.split('\n').filter(Boolean)) {
    if (/^STEP [01]$/.test(text)) mark++;
    else lines.push({ text, at: marks[mark] ?? last, kind: kindOf(text) });
  }
  return lines;
}

/**
 * The lines of all channels in order, with those of STEP and RUN as the deck has them.
 * @param {TraceLine[][]} channels
 * @param {Played[]} events
 * @param {number} reached events that were traced
 * @returns {TraceLine[]}
 */
export function woven(channels, events, reached) {
  const steps = events.slice(0, reached).flatMap(({ name, answer }, number) =>
    name === 'STEP' || name === 'RUN' ? [{ text: answer, at: { event: number + 1, unit: 0 }, kind: /** @type {const} */ ('event') }] : []);
  const ranked = channels.flat().map(line => ({ line, rank: /still runs$/.test(line.text) ? 2 : 0 }));
  const all = [...ranked, ...steps.map(line => ({ line, rank: 1 }))];
  return all.sort((a, b) => compareMoments(a.line.at, b.line.at) || a.rank - b.rank).map(it => it.line);
}

/**
 * Runs a fine deck over the drives of its channel: what the program says, and its trace.
 * @param {import('./program.mjs').Program} program
 * @param {FineDeck} deck
 * @param {{ channel: number, storage: number, drives: import('./stepper.mjs').DeckDrive[] }} machine
 */
export function traced(program, deck, { channel, storage, drives }) {
  /** @type {import('./program.mjs').Files} */ const files = new Map();
  /** @type {string[]} */ const words = [];
  for (const drive of drives) {
    const unit = hex(drive.address & 255, 2);
    if ('files' in drive) {
      [...drive.files.values()].forEach((bytes, place) => {
        files.set(`${unit}_${place}.ckd`, bytes);
        words.push(`${unit}=${unit}_${place}.ckd`);
      });
    } else words.push(`${unit}=new:${drive.model}:${drive.cylinders}`);
  }
  const options = ['--channel', String(channel), '--storage', String(storage), '--trace-to', 'trace', '--trace-whole'];
  const ended = program.run(['run', ...options, ...words], files, deckBytes(deck.text));
  if (ended.status && !ended.output.length) throw refusal(ended);
  return { answers: textOf(ended.output).split('\n').filter(Boolean), trace: textOf(/** @type {Uint8Array | undefined} */ (ended.files.get('trace')) ?? new Uint8Array(0)) };
}

/**
 * Where two storages differ, as runs of bytes of the second.
 * @param {Uint8Array} before
 * @param {Uint8Array} after
 */
export function differences(before, after) {
  const runs = [];
  for (let at = 0; at < after.length; at++) {
    if (before[at] === after[at]) continue;
    const from = at;
    while (at < after.length && before[at] !== after[at]) at++;
    runs.push({ at: from, bytes: after.slice(from, at) });
  }
  return runs;
}


// @ts-check
// The first minute: a channel program of four words runs over the example pack, word by word, with the arm and the record that is under the
// head; what each word does is beside it. All that is shown comes from the program: from its trace, and from the machine at that moment.

import { Disc } from './disc.mjs';
import { button, find, hex, make } from './dom.mjs';
import { LETTERS } from './ebcdic.mjs';
import { FIRST, FIRST_TEXT, FIRST_WORDS, SHORT } from './first_program.mjs';

/** @typedef {import('./engine.mjs').Engine} Engine */
/** @typedef {import('./shapes.mjs').Volume} Volume */
/** @typedef {{at: import('./tracing.mjs').Moment, card: number, record: number | null, isFound: boolean}} Step a word that was carried out */

const ADDRESS = 0x190;
const WORD = 8;
/** How long each word is shown, and the end, in ms. */
const SHOWN = [1900, 1250, 750, 2200], END = 6500, SWAY = 1300;
const CELLS = 16;

/**
 * What was done, word by word, from the lines of the trace.
 * @param {import('./tracing.mjs').TraceLine[]} trace
 * @returns {Step[]}
 */
export function stepsOf(trace) {
  return trace.filter(it => it.kind === 'word').flatMap(({ text, at }) => {
    const [, address] = /^ *([0-9A-F]{6}) [0-9A-F]{2} /.exec(text) ?? [], [, record] = / R(\d+) [0-9A-F]{10} /.exec(text) ?? [];
    const card = (parseInt(address, 16) - FIRST.start) / WORD;
    if (!FIRST_WORDS[card]) return [];
    return [{ at, card, record: record === undefined ? null : Number(record), isFound: / equal /.test(text) }];
  });
}

/**
 * Operands, with what is short in them explained.
 * @param {string} text as SEEK ARM,CC,6
 */
const explained = text => text.split(/\b(CC|SLI)\b/).map(it => (it === 'CC' || it === 'SLI' ? make('abbr', { title: SHORT[it] }, it) : it));

/**
 * A step in words.
 * @param {Step} step
 * @param {boolean} isPlaying
 */
function told({ card, record, isFound }, isPlaying) {
  if (card === 0) return `The arm goes to cylinder ${FIRST.cylinder}.`;
  if (card === 1) return isFound ? `Record ${record} is under the head: this is the one.` : `Record ${record} is under the head. ${record} is not ${FIRST.record}.`;
  if (card === 2) return 'So back to the search, for the next record.';
  return `Record ${FIRST.record} is read: its first ${FIRST.length} bytes are in main storage.${isPlaying ? ' It begins again in a moment.' : ''}`;
}

/** The view of the first program. */
export class Tour {
  /**
   * @param {Engine} engine
   * @param {{pack: () => Promise<Volume>, arm: (cylinder: number, moves: boolean) => void, change: (text: string) => void}} hooks
   */
  constructor(engine, hooks) {
    this.engine = engine;
    this.hooks = hooks;
    this.disc = new Disc(find('disc'));
    /** @type {Step[]} */
    this.steps = [];
    /** @type {number | null} the deck, where it was played */
    this.deck = null;
    this.cylinders = 1;
    this.at = -1;
    this.isPlaying = false;
    /** @type {ReturnType<typeof setTimeout> | undefined} */
    this.later = undefined;
    this.cards = FIRST_WORDS.map(({ name, about }) => make('li', {}, make('b', {}, name), make('code', {}), make('span', {}, about), make('small', { class: 'mono' })));
    find('cards').replaceChildren(...this.cards);
    find('cards-key').replaceChildren(...Object.entries(SHORT).flatMap(([it, means]) => [make('b', {}, it), `, ${means}. `]),
      make('span', {}, 'Below each word: where it is, and its eight bytes in hexadecimal.'));
    this.play = button('Pause', () => this.#toggle(), { class: 'first' });
    find('tour-actions').replaceChildren(this.play, button('◀', () => this.hold(this.at - 1), { 'aria-label': 'One word back' }),
      button('▶', () => this.hold(this.at + 1), { 'aria-label': 'One word on' }), button('Change this program', () => hooks.change(FIRST_TEXT)));
    document.addEventListener('visibilitychange', () => (document.hidden ? clearTimeout(this.later) : this.#next()));
  }

  /** Runs the program, once, and shows it from its beginning. */
  async start() {
    if (this.deck === null) await this.#run();
    this.isPlaying = !matchMedia('(prefers-reduced-motion: reduce)').matches;
    this.#name();
    if (this.isPlaying) return this.#show(0);
    return this.#show(this.steps.length - 1);
  }

  async #run() {
    const { text } = await this.engine.ask('assemble', FIRST_TEXT), pack = await this.hooks.pack();
    const played = await this.engine.ask('play', { text, storage: 4096, drives: [{ address: ADDRESS, volume: pack.number }] });
    this.deck = played.deck;
    this.steps = stepsOf(played.trace);
    this.cylinders = pack.cylinders;
    this.disc.draw(pack.tracks[FIRST.cylinder * pack.heads + FIRST.head].records, FIRST.cylinder, pack.cylinders);
    const words = /^STORE 000400 (.*)$/m.exec(text)?.[1].split(' ') ?? [], lines = FIRST_TEXT.split('\n');
    this.cards.forEach((card, at) => {
      const line = lines.find(it => it.slice(9).startsWith(`${FIRST_WORDS[at].word} `)) ?? '';
      card.children[1].replaceChildren(...explained(line.slice(9, 28).trim().replace(/ +/, ' ')));
      /** @type {HTMLElement} */ (card.children[3]).textContent = `${hex(FIRST.start + WORD * at, 4)}  ${words[at]?.replace(/(.{8})/, '$1 ') ?? ''}`;
    });
  }

  /** The program is no longer shown; its pack may go. */
  stop() {
    this.isPlaying = false;
    clearTimeout(this.later);
    if (this.deck !== null) this.engine.ask('forget', this.deck).catch(() => {});
    this.deck = null;
  }

  /** It is not seen just now. */
  pause() { clearTimeout(this.later); }

  #name() { this.play.textContent = this.isPlaying ? 'Pause' : 'Play'; }

  #toggle() {
    this.isPlaying = !this.isPlaying;
    this.#name();
    if (!this.isPlaying) clearTimeout(this.later);
    else this.#show(this.at + 1 < this.steps.length ? this.at + 1 : 0);
  }

  /** @param {number} at a step that stays */
  async hold(at) {
    this.isPlaying = false;
    this.#name();
    clearTimeout(this.later);
    await this.#show(Math.min(Math.max(at, 0), this.steps.length - 1));
  }

  #next() {
    clearTimeout(this.later);
    if (!this.isPlaying || this.deck === null) return;
    const isEnd = this.at + 1 >= this.steps.length;
    this.later = setTimeout(() => this.#show(isEnd ? 0 : this.at + 1), isEnd ? END : SHOWN[this.steps[this.at].card]);
  }

  /** @param {number} at */
  async #show(at) {
    const step = this.steps[at], isFirst = at === 0;
    if (!step || this.deck === null) return;
    this.at = at;
    const state = await this.engine.ask('step', this.deck, step.at, [{ at: FIRST.buffer, length: FIRST.length }]);
    if (this.at !== at || this.deck === null) return;
    this.cards.forEach((it, card) => it.classList.toggle('now', card === step.card));
    find('tour-told').textContent = told(step, this.isPlaying);
    if (isFirst) this.#sway();
    else this.#stand(FIRST.cylinder, false);
    const record = step.record ?? (step.card ? this.steps[at - 1]?.record ?? null : null);
    if (record !== null) this.disc.turn(record);
    const isWanted = step.card === 3 || step.isFound, said = record === null ? '' : `${record} ${isWanted ? '=' : '≠'} ${FIRST.record}`;
    this.disc.light(step.card === 2 ? null : record, isWanted ? 'equal' : 'unequal', step.card === 1 ? said : '');
    this.#storage(state.storage[0].bytes, step.card === 3);
    this.#next();
  }

  // The arm goes from the rim to the cylinder.
  #sway() {
    const from = performance.now(), isStill = !this.isPlaying;
    const frame = (/** @type {number} */ now) => {
      if (this.at !== 0 || this.deck === null) return;
      const part = isStill ? 1 : Math.min(1, Math.max(0, (now - from) / SWAY)), gone = part < 0.5 ? 2 * part * part : 1 - 2 * (1 - part) ** 2;
      this.#stand(Math.round(FIRST.cylinder * gone), part < 1);
      if (part < 1) requestAnimationFrame(frame);
    };
    frame(from);
  }

  /**
   * @param {number} cylinder
   * @param {boolean} moves
   */
  #stand(cylinder, moves) {
    this.disc.seek(cylinder, this.cylinders, !moves);
    this.hooks.arm(cylinder, moves);
    find('tour-arm').textContent = `cylinder ${cylinder}`;
  }

  /**
   * @param {Uint8Array} bytes
   * @param {boolean} isRead
   */
  #storage(bytes, isRead) {
    const cells = [...bytes].map(it => make('span', {}, make('b', {}, isRead ? LETTERS[it] : '·'), make('small', {}, hex(it, 2))));
    const rows = Array.from({ length: Math.ceil(cells.length / CELLS) }, (_, at) =>
      make('div', { class: 'cells' }, make('i', {}, hex(FIRST.buffer + CELLS * at, 4)), ...cells.slice(CELLS * at, CELLS * (at + 1))));
    find('fetched').replaceChildren(...rows);
    find('fetched').classList.toggle('read', isRead);
    const text = [...bytes].map(it => LETTERS[it]).join('');
    find('fetched').setAttribute('aria-label', isRead ? `Main storage has: ${text}` : 'Main storage: nothing is read yet');
    find('tour-text').textContent = isRead ? text.trim() : '';
  }
}

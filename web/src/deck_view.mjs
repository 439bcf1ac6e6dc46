// @ts-check
// The view of a deck: written, run over its drives, and stepped through; with the trace, and the machine's panel at each moment.

import { DeckEditor, deckLines, faultLine } from './deck_editor.mjs';
import { find } from './dom.mjs';
import { Drafts } from './drafts.mjs';
import { Panel } from './panel.mjs';
import { Timeline } from './timeline.mjs';
import { Trace } from './trace.mjs';

/** @typedef {import('./engine.mjs').Engine} Engine */
/** @typedef {import('./drives.mjs').Drives} Drives */
/** @typedef {import('./shapes.mjs').State} State */
/** @typedef {import('./shapes.mjs').Example} Example */
/** @typedef {import('./stepper.mjs').PlayedEvent} PlayedEvent */
/** @typedef {import('./tracing.mjs').TraceLine} TraceLine */
/** @typedef {import('./drafts.mjs').Draft} Draft */
/** @typedef {{text: string, language: import('./deck_editor.mjs').Language, example: Example | null, storage: number}} Written what stands there */
/** @typedef {{events: PlayedEvent[], trace: TraceLine[], isTraced: boolean, disagreement: string | null, deck: number, changed: number[]}} Played */

/**
 * @typedef {object} Hooks
 * @property {(text: string) => void} tell
 * @property {() => Promise<void>} ready there is a volume to run over
 * @property {(played: Played) => Promise<void>} left a deck has run
 * @property {(state: State) => void} stood a moment is shown
 */

const FIXED = { at: 0x40, length: 16 };
const SHOWN = 512;
const STORAGE = 65536;

/** All that is seen of a deck. */
export class DeckView {
  /**
   * @param {Engine} engine
   * @param {Drives} drives
   * @param {Hooks} hooks
   */
  constructor(engine, drives, hooks) {
    this.engine = engine;
    this.drives = drives;
    this.hooks = hooks;
    this.storage = STORAGE;
    /** The deck that was run last. */
    this.ran = '';
    /** @type {Played | null} */
    this.played = null;
    /** @type {Timeline | null} */
    this.time = null;
    /** @type {Example | null} */
    this.example = null;
    this.moment = 0;
    /** Whether the visitor changed the text since it was put there. */
    this.isEdited = false;
    this.drafts = new Drafts(() => localStorage);
    /** @type {number | null} the moment that is wanted next, while another one is asked for */
    this.wanted = null;
    this.isAsking = false;
    /** @type {Map<string, Promise<string>>} */
    this.texts = new Map();
    const explain = (/** @type {string} */ kind, /** @type {string} */ digits) =>
      this.#text(`${kind} ${digits}`, () => engine.ask('explain', kind, digits));
    this.editor = new DeckEditor({
      explain,
      fault: line => this.#text(`line ${line}`, async () => (await engine.ask('deckFault', line))?.text ?? ''),
      forms: () => this.#text('forms', () => engine.ask('forms')),
      assemble: text => engine.ask('assemble', text),
      disassemble: deck => engine.ask('disassemble', deck),
      go: event => this.time && this.go(this.time.numberOf({ event: event + 1, unit: 0 })),
      run: () => this.run(),
      typed: () => this.#typed(),
      turned: () => this.isEdited && this.#typed()
    });
    this.trace = new Trace({ go: moment => this.go(moment) });
    this.panel = new Panel({ explain, from: () => this.time && this.go(this.moment) });
    this.trace.clear();
    find('run').addEventListener('click', () => this.run());
    find('edit').addEventListener('click', () => this.#edit());
    const [latest] = this.drafts.all();
    if (latest) this.writeDraft(latest);
  }

  /** What stands there: to be kept, and put there again. @returns {Written} */
  get written() { return { text: this.editor.text, language: this.editor.language, example: this.example, storage: this.storage }; }

  /** Whether what stands there would be lost with the page. */
  get isUnsaved() { return this.isEdited && !this.drafts.isKept; }

  // What is written is kept as it is typed.
  #typed() {
    this.isEdited = true;
    this.drafts.keep(this.editor.text, this.editor.language);
    find('draft').textContent = this.drafts.isKept ? 'Kept in this browser' : 'Not kept: this browser stores nothing for this page';
    find('draft').classList.toggle('bad', !this.drafts.isKept);
  }

  /** @param {Draft} draft goes on being that draft */
  writeDraft(draft) {
    this.writeAgain({ text: draft.text, language: draft.language, example: null, storage: STORAGE });
    this.drafts.current = draft.id;
    find('draft').textContent = `Your draft of ${new Date(draft.at).toLocaleString('en', { dateStyle: 'medium', timeStyle: 'short' })}`;
  }

  /**
   * A text of the program that is asked for once.
   * @param {string} key
   * @param {() => Promise<string>} ask
   * @returns {Promise<string>}
   */
  #text(key, ask) {
    const kept = this.texts.get(key) ?? ask().catch(() => {
      this.texts.delete(key);
      return '';
    });
    this.texts.set(key, kept);
    return kept;
  }

  #edit() {
    this.editor.edit();
    this.editor.field.focus();
  }

  /** Nothing is run any more: the volumes are others. */
  forget() {
    if (this.played) this.engine.ask('forget', this.played.deck).catch(() => {});
    this.played = this.time = null;
    this.trace.clear();
    this.panel.clear();
    this.editor.edit();
  }

  /**
   * @param {string} text
   * @param {Example | null} example
   * @param {number} storage
   */
  write(text, example = null, storage = STORAGE) { this.writeAgain({ text, language: 'deck', example, storage }); }

  /** @param {Written} written what takes the place of the text that stands there, whose draft stays */
  writeAgain({ text, language, example, storage }) {
    this.forget();
    this.example = example;
    this.storage = storage;
    this.isEdited = false;
    this.drafts.current = null;
    find('draft').textContent = '';
    this.editor.write(text, language);
    const about = find('about');
    about.hidden = !example?.about;
    about.textContent = example?.about ?? '';
  }

  /** Runs the deck to its end, over the volumes as they are. */
  async run() {
    await this.hooks.ready();
    const drives = this.drives.all.map(it => ({ address: it.address, volume: it.volume.number }));
    find('run').setAttribute('aria-busy', 'true');
    try {
      const { text, fault } = await this.editor.deck();
      if (fault) throw new Error(faultLine(fault));
      const played = await this.engine.ask('play', { text, storage: this.storage, drives });
      this.forget();
      await this.#ran(played, text);
    } catch (fault) {
      this.forget();
      this.trace.tell(/** @type {Error} */ (fault).message);
    } finally {
      find('run').removeAttribute('aria-busy');
    }
  }

  /**
   * @param {Played} played
   * @param {string} text
   */
  async #ran(played, text) {
    this.played = played;
    this.ran = text;
    this.time = new Timeline(played.events.map(it => it.units),
      played.trace.map(it => ({ text: it.text, event: it.at.event, unit: it.at.unit, isWord: it.kind === 'word' })));
    this.editor.ran(deckLines(text, played.events), played.events.map(it => it.answer), event => this.#beside(event));
    this.trace.take(this.time);
    if (played.disagreement) this.hooks.tell(played.disagreement);
    else if (!played.isTraced) this.hooks.tell('The trace ends before the deck does: it goes as far as some 140,000 units.');
    await this.hooks.left(played);
    await this.go(this.time.end);
    find('trace').focus({ preventScroll: true });
  }

  // What must come of an event, and what Hercules answers, where an example says it and it is another.
  /** @param {number} event */
  #beside(event) {
    const { example, played } = this;
    if (!example || !played || example.deck !== this.ran) return [];
    const must = example.answers[event], other = example.hercules?.[event], came = played.events[event].answer;
    return [
      ...(must && must !== came ? [{ text: `must be ${must}`, kind: 'wrong' }] : []),
      ...(other ? [{ text: `Hercules answers ${other}`, kind: 'other' }] : [])
    ];
  }

  /**
   * Brings the machine to a moment. While one is asked for, the last that is wanted waits.
   * @param {number} moment
   */
  async go(moment) {
    this.wanted = this.trace.now = moment;
    if (this.isAsking) return;
    this.isAsking = true;
    try {
      while (this.wanted !== null && this.played && this.time) {
        const next = this.wanted;
        this.wanted = null;
        const state =
          await this.engine.ask('step', this.played.deck, this.time.placeOf(next), [FIXED, { at: this.panel.from, length: SHOWN }]);
        if (this.time && this.wanted === null) this.#stand(next, state);
      }
    } catch (fault) {
      this.hooks.tell(/** @type {Error} */ (fault).message);
    } finally {
      this.isAsking = false;
    }
  }

  /**
   * @param {number} moment
   * @param {State} state
   */
  #stand(moment, state) {
    this.moment = moment;
    this.trace.show(moment);
    this.editor.stand(/** @type {Timeline} */ (this.time).placeOf(moment).event);
    this.panel.show(state, state.running === null ? '' : this.played?.trace[state.running].text ?? '');
    this.hooks.stood(state);
  }
}

// @ts-check
// The page: its views put together, volumes opened, saved and undone, and what leads from one view to another.

import { openAbout } from './about.mjs';
import { Changes } from './changes.mjs';
import { Compare } from './compare.mjs';
import { find } from './dom.mjs';
import { DeckView } from './deck_view.mjs';
import { Drives } from './drives.mjs';
import { Engine } from './engine.mjs';
import { ExampleDecks } from './example_decks.mjs';
import { saveAs, unpackedFiles } from './files.mjs';
import { FIRST, FIRST_TEXT, LABEL_TEXT } from './first_program.mjs';
import { Frame } from './frame.mjs';
import { Incoming } from './incoming.mjs';
import { Picker } from './picker.mjs';
import { Places } from './places.mjs';
import { Shelf } from './shelf.mjs';
import { Sources } from './sources.mjs';
import { Tour } from './tour.mjs';
import { VolumeView } from './volume_view.mjs';

/** @typedef {import('./shapes.mjs').Volume} Volume */
/** @typedef {import('./drives.mjs').Drive} Drive */
/** @typedef {import('./deck_view.mjs').Written} Written */

const FIRST_ADDRESS = 0x190;
const STORAGE = 65536;

class Page {
  engine = new Engine();
  shelf = new Shelf(this.engine);
  examples = new ExampleDecks(this.shelf);
  /** @type {Volume | null} the volume before the last deck, and the other one of a comparison */
  former = null;
  /** @type {Volume | null} */
  other = null;

  constructor() {
    this.frame = new Frame({
      shown: tab => this.#shown(tab),
      redraw: () => this.view.redraw(),
      folded: () => this.view.picture.draw(),
      closed: () => this.places.stop()
    });
    this.sources = new Sources(this.shelf, (text, done, whole) => this.frame.progress(text, done, whole));
    this.changes = new Changes(this.engine, this.shelf, {
      drives: () => this.drives,
      beside: () => [this.former, this.other, this.sources.example],
      tell: text => this.tell(text)
    });
    /** @type {Drives} */
    this.drives = new Drives({
      shown: drive => this.#look(drive, false),
      add: (address, kind) => this.#guard(this.#addDrive(address, kind)),
      changed: () => {
        this.deck.forget();
        if (this.drives.shown) this.#look(this.drives.shown, false);
      },
      removing: () => this.changes.remember({ isReplaced: true }),
      isUnsaved: drive => this.changes.unsaved.has(drive.volume.number)
    });
    this.view = new VolumeView(this.engine, { tell: text => this.tell(text), toVolume: () => this.show('volume') });
    this.deck = new DeckView(this.engine, this.drives, {
      tell: text => this.tell(text),
      ready: () => this.#ready(),
      left: played => this.#left(played),
      stood: state => this.#stood(state)
    });
    this.compare = new Compare(this.engine, {
      open: () => this.incoming.pick('other'),
      ran: () => this.#guard(this.#compareWith(this.former, true)),
      track: track => this.view.pick(track)
    });
    this.picker = new Picker({
      picked: example => {
        this.places.stop();
        this.#guard(this.#example(example));
      },
      drafts: this.deck.drafts,
      draft: draft => {
        this.changes.remember({ written: this.deck.written });
        this.deck.writeDraft(draft);
      }
    });
    this.tour = new Tour(this.engine, {
      pack: () => this.#sample(),
      arm: (cylinder, moves) => this.tab === 'first' && this.drives.shown?.volume.origin === 'example' &&
        this.view.stand([{ cylinder, head: 0, moves, name: '190' }]),
      change: text => this.#write(text, 'words')
    });
    this.places = new Places(this.drives, {
      tell: (text, isGood) => this.tell(text, isGood),
      begin: () => this.#begin(),
      hasGiven: () => this.sources.hasGiven,
      pack: (address, kind, signal) => this.sources.pack(address, kind, signal),
      take: drives => this.takeAll(drives),
      examples: () => this.examples.all(),
      run: example => this.#example(example),
      write: (text, language) => this.#write(text, language),
      volume: track => {
        this.show('volume');
        if (track !== null) this.view.pick(track);
      },
      shown: () => ({ tab: this.tab, track: this.view.picture.chosen, written: this.deck.written })
    });
    this.incoming = new Incoming({
      taken: (list, wanted) => this.#guard(this.#taken(list, wanted)),
      dropped: () => (this.tab === 'compare' && this.drives.shown ? 'other' : 'volume')
    });
    this.#listen();
  }

  /** @param {Promise<any>} work */
  #guard(work) { return work.catch(fault => this.tell(fault.message)); }

  #listen() {
    find('empty-example').addEventListener('click', () => this.#guard(this.example()));
    find('new').addEventListener('change', event => this.#guard(this.#new (/** @type {HTMLSelectElement} */ (event.target))));
    find('save').addEventListener('click', () => this.#guard(this.#save()));
    find('undo').addEventListener('click', () => this.#guard(this.#undo()));
    find('about-page').addEventListener('click', () => this.#guard(openAbout()));
    find('link').addEventListener('click', () => this.#guard(this.places.copy()));
    addEventListener('hashchange', () => this.#guard(this.places.arrive(location.hash)));
    find('wrong').addEventListener('click', () => {
      this.show('volume');
      document.getElementById('findings')?.scrollIntoView();
    });
    find('pick').addEventListener('click', () => this.#guard(this.examples.all().then(all => this.picker.open(all))));
    addEventListener('beforeunload', event => {
      if (this.isUnsaved) event.preventDefault();
    });
  }

  get tab() { return this.frame.tab; }

  /**
   * Tells what went wrong, or that something was done.
   * @param {string} text
   * @param {boolean} [isGood]
   */
  tell(text, isGood = false) { this.frame.tell(text, isGood); }

  /** @param {string} tab */
  show(tab) { this.frame.show(tab); }

  /** @param {string} tab */
  #shown(tab) {
    if (tab === 'first') this.#guard(this.tour.start());
    else {
      this.tour.pause();
      if (!this.deck.played && this.view.volume) this.view.stand([]);
    }
  }

  /**
   * Files that were dropped or picked.
   * @param {File[]} list
   * @param {string} wanted what they are for: `volume`, `other`, or a drive's address
   */
  async #taken(list, wanted) {
    this.places.stop();
    const files = await unpackedFiles(list);
    this.tell('');
    const volume = await this.shelf.open(files);
    if (wanted === 'volume') this.take(volume);
    else if (wanted === 'other') await this.#compareWith(volume, false);
    else this.#attach(Number(wanted), volume);
    this.frame.focus();
  }

  /**
   * A volume takes the place of all that was there.
   * @param {Volume} volume
   */
  take(volume) { this.takeAll([{ address: FIRST_ADDRESS, volume }]); }

  /**
   * Drives take the place of all that were there; Undo brings those back, and the text that another one is going to take the place of.
   * @param {Drive[]} drives
   * @param {Written | null} [written]
   */
  takeAll(drives, written = null) {
    this.deck.forget();
    if (this.drives.all.length) this.changes.remember({ isReplaced: true, written });
    this.former = this.other = null;
    this.drives.set(drives);
    this.#dropSample();
    this.changes.tidy();
    this.compare.clear();
    this.compare.changes.disabled = true;
    this.view.mark(new Set(), '');
    this.#look(this.drives.all[0], false);
    if (!this.deck.isEdited && this.deck.editor.text === FIRST_TEXT) this.deck.editor.write(LABEL_TEXT, 'words');
    this.show(this.tab === 'first' ? 'volume' : this.tab);
  }

  /** Whether leaving the page loses something: a pack that a deck changed, here or for Undo, or a text that the browser does not keep. */
  get isUnsaved() { return this.deck.isUnsaved || this.changes.areThere; }

  /**
   * Shows a drive's volume.
   * @param {Drive} drive
   * @param {boolean} isSame
   */
  #look({ volume }, isSame) {
    this.frame.name(volume);
    this.changes.mark();
    if (!isSame) this.view.mark(new Set(), '');
    this.view.show(volume, isSame);
    this.view.stand([]);
  }

  /** The example pack, and no longer the word that it is unpacked. */
  async #sample() {
    const volume = await this.sources.sample();
    find('loading').textContent = '';
    return volume;
  }

  // The example pack is closed with the first program where others took its place.
  #dropSample() {
    if (this.drives.all.some(it => it.volume.origin === 'example')) return;
    this.tour.stop();
    this.sources.forgetSample();
  }

  /** Opens the example pack. */
  async example() {
    this.places.stop();
    const volume = await this.#sample();
    if (this.drives.all.length !== 1 || this.drives.shown?.volume !== volume) this.take(volume);
    if (this.deck.editor.text === LABEL_TEXT) this.deck.editor.write(FIRST_TEXT, 'words');
    this.show(this.tab === 'first' ? 'volume' : this.tab);
    this.frame.focus();
  }

  /**
   * A text is written where it can be changed; Undo brings back the one that was there.
   * @param {string} text
   * @param {import('./deck_editor.mjs').Language} language
   */
  #write(text, language) {
    const { written } = this.deck;
    if (written.text !== text || written.language !== language) this.changes.remember({ written });
    this.deck.writeAgain({ text, language, example: null, storage: STORAGE });
    this.show('deck');
  }

  /** @param {HTMLSelectElement} field */
  async #new(field) {
    const kind = field.value;
    this.places.stop();
    field.value = '';
    if (kind === 'example') return this.example();
    if (kind) this.take(await this.shelf.format(kind));
  }

  /**
   * @param {number} address
   * @param {string} kind
   */
  async #addDrive(address, kind) {
    if (kind === 'files') return this.incoming.pick(String(address));
    this.#attach(address, await this.shelf.formatAt(address, kind));
  }

  /**
   * @param {number} address
   * @param {Volume} volume
   */
  #attach(address, volume) {
    this.deck.forget();
    this.drives.set([...this.drives.all, { address, volume }], this.drives.shown ?? undefined);
    if (this.drives.all.length === 1) this.#look(this.drives.all[0], false);
  }

  // A deck has something to run over: where nothing is open, a new volume.
  async #ready() {
    if (!this.drives.all.length) this.take(await this.shelf.format('2314 5'));
  }

  /**
   * What a deck left: the volumes that it changed take the place of those before it.
   * @param {import('./deck_view.mjs').Played} played
   */
  async #left({ deck, changed }) {
    const { all, shown } = this.drives;
    if (!changed.length) return this.view.mark(new Set(), '');
    const next = await Promise.all(all.map(async drive => {
      if (!changed.includes(drive.address)) return drive;
      return { address: drive.address, volume: await this.shelf.left(deck, drive) };
    }));
    this.changes.remember({});
    for (const it of next) if (!all.includes(it)) this.changes.unsaved.add(it.volume.number);
    const at = all.findIndex(it => it === shown), now = next[at] === shown ? next.find((it, i) => it !== all[i]) ?? next[at] : next[at];
    this.former = all[next.indexOf(now)].volume;
    this.drives.set(next, now);
    this.#look(now, true);
    await this.#compareWith(this.former, true, false);
    this.compare.changes.disabled = false;
  }

  /**
   * @param {State} state
   * @typedef {import('./shapes.mjs').State} State
   */
  #stood(state) {
    const seen = state.channels.flatMap(it => it.drives).find(it => it.address === this.drives.shown?.address);
    if (seen)
      this.view.stand([{ cylinder: seen.cylinder, head: seen.head, moves: seen.arm === 'in motion', name: seen.address.toString(16) }]);
  }

  /**
   * Compares the volume with another one.
   * @param {Volume | null} other
   * @param {boolean} isFormer whether it is the volume before the deck
   * @param {boolean} [isShown]
   */
  async #compareWith(other, isFormer, isShown = true) {
    const volume = this.drives.shown?.volume;
    if (!other || !volume) return;
    this.other = other;
    await this.changes.tidy();
    const found = await this.compare.differ(other, volume);
    this.view.mark(new Set(found.differences.map(it => it.track)), isFormer ? 'changed by the deck' : `differs from ${other.name}`);
    if (isShown) this.show('compare');
    this.compare.show(found, isFormer, isShown);
  }

  async #save() {
    const { volume } = /** @type {Drive} */ (this.drives.shown);
    for (const [name, bytes] of await this.engine.ask('files', volume.number)) saveAs(name, bytes);
    this.changes.unsaved.delete(volume.number);
    this.changes.mark();
  }

  async #undo() {
    const past = this.changes.history.take();
    if (!past) return;
    const there = new Map(this.drives.all.map(it => [it.volume.number, it.volume])), isSame = past.drives.every(it => there.has(it.number));
    const all = await Promise.all(past.drives.map(
      async it => ({ address: it.address, volume: there.get(it.number) ?? await this.shelf.again(it) })));
    if (past.written) this.deck.writeAgain(past.written);
    else this.deck.forget();
    if (isSame && all.length === this.drives.all.length) return this.changes.mark();
    this.former = this.other = null;
    this.compare.clear();
    this.compare.changes.disabled = true;
    this.drives.set(all, all[past.shown]);
    this.view.mark(new Set(), '');
    this.#look(all[past.shown] ?? all[0], !past.isReplaced);
    await this.changes.tidy();
  }

  /**
   * An example by its place among all.
   * @param {number} number
   */
  async pickExample(number) { await this.#example((await this.examples.all())[number]); }

  /**
   * An example: its drives take the place of those that were there.
   * @param {import('./shapes.mjs').Example} example
   */
  async #example(example) {
    const opened = this.picker.isHere ? [] : await this.examples.drives(example);
    const { written } = this.deck;
    if (opened.length) this.takeAll(opened, written);
    else this.changes.remember({ written });
    this.deck.write(example.deck, example, example.storage);
    this.show('deck');
    await this.deck.run();
  }

  /** The page as it begins: the example pack, and its first program; the track is that which it reads. */
  async #begin() {
    const volume = await this.#sample();
    this.drives.set([{ address: FIRST_ADDRESS, volume }]);
    this.#look(this.drives.all[0], false);
    this.view.pick(FIRST.cylinder * volume.heads + FIRST.head);
    this.show('first');
  }

  async start() {
    const { version } = await this.engine.start();
    document.documentElement.dataset.version = version;
    await this.places.arrive(location.hash).catch(fault => this.tell(fault.message));
    if (!this.drives.all.length) await this.#begin();
    document.documentElement.dataset.ready = 'yes';
  }
}

const page = new Page();
/** For tests and for whoever looks: the page's parts. */
Object.assign(globalThis, { page });
page.start().catch(fault => page.tell(`The page could not start: ${fault.message}`));

// @ts-check
// The view of a volume: the picture, the table of contents, a track's records, and bytes; and what leads from one to the other.

import { amount, button, counted, find, make, trackName } from './dom.mjs';
import { Bytes, Records } from './records.mjs';
import { Contents } from './contents.mjs';
import { directoryOf, tracksOfMember } from './directory.mjs';
import { fieldsOf } from './fields.mjs';
import { Picture } from './picture.mjs';
import { saveAs } from './files.mjs';
import { tracksOf } from './extents.mjs';

/** @typedef {import('./engine.mjs').Engine} Engine */
/** @typedef {import('./shapes.mjs').Volume} Volume */
/** @typedef {import('./shapes.mjs').Member} Member */

/** All that is seen of the volume on the page. */
export class VolumeView {
  /**
   * @param {Engine} engine
   * @param {{tell: (text: string) => void, toVolume: () => void}} hooks
   */
  constructor(engine, hooks) {
    this.engine = engine;
    this.hooks = hooks;
    /** @type {Volume | null} */
    this.volume = null;
    /** @type {Set<number>} */
    this.changed = new Set();
    this.changedBy = '';
    /** @type {Map<number, Promise<Member[]>>} */
    this.members = new Map();
    this.picture = new Picture(find('picture'), {
      told: track => this.tell(track),
      chosen: track => this.pick(track),
      opened: track => {
        this.pick(track);
        hooks.toVolume();
      }
    });
    this.bytes = new Bytes();
    this.records = new Records({ record: place => this.#record(place) });
    this.contents = new Contents({
      set: set => this.#guard(this.#set(set)),
      member: (set, name) => this.#guard(this.#member(set, name)),
      members: set => this.membersOf(set),
      track: track => this.pick(track),
      search: text => this.#search(text),
      takeAll: () => this.#guard(this.takeAll()),
    });
  }

  /** @param {Promise<any>} work */
  #guard(work) { work.catch(fault => this.hooks.tell(fault.message)); }

  /**
   * @param {Volume} volume
   * @param {boolean} isSame whether it is the volume that was shown, changed
   */
  show(volume, isSame) {
    this.volume = volume;
    this.members.clear();
    find('map').hidden = false;
    this.contents.show(volume, isSame);
    this.picture.show(volume, isSame);
    this.#legend();
    this.pick(isSame ? this.picture.chosen : 0);
  }

  /**
   * @param {Set<number>} tracks
   * @param {string} by what the frames mean
   */
  mark(tracks, by) {
    this.changed = tracks;
    this.changedBy = by;
    this.picture.mark(tracks);
    if (this.volume) this.#legend();
  }

  /** @param {import('./picture.mjs').Arm[]} arms where the arm of the volume's drive stands */
  stand(arms) {
    const isOther = arms.length !== this.picture.arms.length;
    this.picture.stand(arms);
    if (isOther && this.volume) this.#legend();
  }

  /** Draws all of it anew, in the light that is on. */
  redraw() {
    this.picture.tracks.forget();
    this.picture.draw();
  }

  /**
   * Chooses a track: its records and bytes are shown.
   * @param {number} track
   */
  pick(track) {
    const volume = /** @type {Volume} */ (this.volume), shape = volume.tracks[track];
    this.picture.choose(track);
    this.tell(null);
    this.records.show(volume, track, shape);
    this.#guard(this.#dump(track, null));
  }

  /**
   * Tells a track in words: the one under the pointer, or else the chosen one.
   * @param {number | null} pointed
   */
  tell(pointed) {
    const volume = /** @type {Volume} */ (this.volume), track = pointed ?? this.picture.chosen, shape = volume.tracks[track];
    const set = volume.owner[track], findings = volume.findings.filter(it => it.track === track && it.severity !== 'note');
    const records =
      shape.unreadable ?? `${amount(shape.records.length, 'record')}, ${counted(shape.used)} of ${counted(volume.capacity)} bytes`;
    const parts = [set >= 0 && volume.sets[set].name, records, this.changed.has(track) && this.changedBy].filter(Boolean).join(', ');
    const wrong = findings.map(it => make('span', { class: 'bad' }, `. ${it.severity}: ${it.text}`));
    find('told').replaceChildren(make('b', {}, trackName(track, volume.heads)), `: ${parts}`, ...wrong);
    find('pointer').setAttribute(
      'aria-label', `${volume.cylinders} cylinders by ${volume.heads} heads, ${amount(volume.sets.length, 'data set')}`);
  }

  /**
   * @param {number} track
   * @param {number | null} place
   */
  async #dump(track, place) {
    const { number, heads, tracks } = /** @type {Volume} */ (this.volume), where = [Math.floor(track / heads), track % heads];
    const identifier = place === null ? null : tracks[track].records[place].identifier;
    const { text, records } = await this.engine.ask('dump', number, ...where, ...(identifier ? [parseInt(identifier.slice(8), 16)] : []));
    if (this.picture.chosen !== track || this.records.at !== place) return;
    const record = records.find((/** @type {any} */ it) => it.identifier === identifier);
    if (!identifier || !record) return this.bytes.dump(`${trackName(track, heads)}: bytes`, text);
    this.bytes.record(`Record ${identifier}`, text, fieldsOf(record, this.#kindOf(track)),
      [button('Whole track', () => this.records.choose(/** @type {number} */ (place)))]);
  }

  /**
   * What the records of a track may be.
   * @param {number} track
   * @returns {import('./fields.mjs').Kind}
   */
  #kindOf(track) {
    const { heads, label, owner, sets } = /** @type {Volume} */ (this.volume), set = sets[owner[track]];
    if (track === 0) return 'label';
    const [first = 0, head = 0, last = -1, lastHead = 0] = label?.contents ?? [];
    if (track >= first * heads + head && track <= last * heads + lastHead) return 'contents';
    return set?.organisation === 'PO' ? 'directory' : '';
  }

  /** @param {number | null} place */
  #record(place) { this.#guard(this.#dump(this.picture.chosen, place)); }

  /**
   * Lights a data set and shows its text; or lights nothing.
   * @param {number | null} number
   */
  async #set(number) {
    const volume = /** @type {Volume} */ (this.volume);
    if (number === null) return this.picture.light(null);
    const set = volume.sets[number], tracks = tracksOf(set, volume.heads, volume.tracks.length);
    this.picture.light(new Set(tracks));
    if (tracks.length) this.pick(tracks[0]);
    if (set.organisation === 'PO') return this.#library(number);
    await this.#text(set.name);
  }

  // A library has no text of its own: its members are listed.
  /** @param {number} number */
  async #library(number) {
    if (!this.contents.open.has(number)) await this.contents.turn(number);
  }

  /**
   * Lights a member's tracks and shows its text.
   * @param {number} number
   * @param {string} name
   */
  async #member(number, name) {
    const volume = /** @type {Volume} */ (this.volume), set = volume.sets[number];
    const [entries, members] = await Promise.all([directoryOf(volume, set, track => this.#recordsOn(track)), this.membersOf(number)]);
    const entry = entries.length === members.length ? entries[members.findIndex(it => it.name === name)] : null;
    const lit = entry ? tracksOfMember(volume, set, entry) : new Set(tracksOf(set, volume.heads, volume.tracks.length));
    this.picture.light(lit);
    const [first] = lit;
    if (first !== undefined) this.pick(first);
    await this.#text(`${set.name}(${name})`);
  }

  /** @param {number} track */
  async #recordsOn(track) {
    const { number, heads } = /** @type {Volume} */ (this.volume);
    return (await this.engine.ask('dump', number, Math.floor(track / heads), track % heads)).records;
  }

  /** @param {string} name */
  async #text(name) {
    const { number } = /** @type {Volume} */ (this.volume),
                   { bytes, fault } = await this.engine.ask('extract', number, name, { text: true });
    const actions =
      [button('Take out as text', () => saveAs(`${name}.txt`, bytes)), button('as it stands', () => this.#guard(this.takeOut(name)))];
    this.bytes.text(name, new TextDecoder().decode(bytes), actions, fault ?? '');
  }

  /** @param {string} name */
  async takeOut(name) {
    const { bytes, fault } = await this.engine.ask('extract', /** @type {Volume} */ (this.volume).number, name, { text: false });
    saveAs(name, bytes);
    if (fault) this.hooks.tell(fault);
  }

  async takeAll() {
    const volume = /** @type {Volume} */ (this.volume),
          { tar, unloaded } = await this.engine.ask('archive', volume.number, { text: false });
    saveAs(`${volume.label?.serial ?? 'volume'}.tar`, tar);
    const partial = unloaded.filter((/** @type {any} */ it) => it.finding);
    if (partial.length)
      this.hooks.tell(`Not whole: ${partial.slice(0, 20).map((/** @type {any} */ it) => `${it.name}: ${it.finding}`).join('; ')}`);
  }

  /**
   * The members of a library.
   * @param {number} number
   * @returns {Promise<Member[]>}
   */
  async membersOf(number) {
    const volume = /** @type {Volume} */ (this.volume), { name } = volume.sets[number];
    const all = this.members.get(volume.number) ?? this.engine.ask('members', volume.number);
    this.members.set(volume.number, all);
    const own = (await all).filter((/** @type {any} */ it) => it.dataSet === name && it.member !== null);
    return own.map((/** @type {any} */ it) => ({ name: it.member, whole: it.name, bytes: it.bytes, fault: it.finding ?? '' }));
  }

  /** @param {string} text */
  async #search(text) {
    const { number, sets } = /** @type {Volume} */ (this.volume);
    const hits = await this.engine.ask('search', number, text).catch(fault => {
      this.hooks.tell(fault.message);
      return [];
    });
    return hits.map((/** @type {any} */ it) => {
      const [, set, member = null] = /^(.*?)(?:\((.*)\))?$/.exec(it.name) ?? [];
      return {...it, set: sets.findIndex(one => one.name === set), member };
    });
  }

  #legend() {
    const volume = /** @type {Volume} */ (this.volume),
          item = (/** @type {Node} */ mark, /** @type {string} */ text) => make('li', {}, mark, text);
    const mark = (/** @type {string} */ kind) => make('span', { class: `swatch ${kind}`, 'aria-hidden': 'true' });
    const scale = make(
      'span', { class: 'scale', 'aria-hidden': 'true' }, ...[0.2, 0.45, 0.65, 0.85, 1].map(it => make('i', { style: `opacity:${it}` })));
    const bare = make('span', { class: 'swatch', style: '--of: var(--bare)', 'aria-hidden': 'true' });
    find('legend').replaceChildren(item(scale, 'empty to full'), item(mark(''), 'no data set’s'), item(bare, 'record 0 alone'),
      ...(volume.sums.errors || volume.findings.some(it => it.severity === 'error') ? [item(mark('error'), 'error')] : []),
      ...(volume.sums.warnings ? [item(mark('warning'), 'warning')] : []),
      ...(this.changed.size ? [item(mark('changed'), this.changedBy)] : []),
      ...(this.picture.arms.length ? [item(mark('arm'), 'arm')] : []));
  }
}

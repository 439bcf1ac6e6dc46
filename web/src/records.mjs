// @ts-check
// A track: its records in a strip from the index on and in a table; and the pane of bytes, which shows dumps and texts.

import { amount, button, counted, find, hex, linesOf, make, trackName } from './dom.mjs';
import { FieldView } from './field_view.mjs';

/** @typedef {import('./shapes.mjs').TrackShape} TrackShape */
/** @typedef {import('./shapes.mjs').Volume} Volume */

/** A record's count area. */
export const COUNT_BYTES = 8;
const MOST_LINES = 3000;

/** The pane of a track's records. */
export class Records {
  /** @param {{record: (record: number | null) => void}} hooks the number of a record that was chosen, by its place on the track */
  constructor(hooks) {
    this.hooks = hooks;
    this.root = find('records');
    this.strip = find('strip');
    /** @type {number | null} */
    this.at = null;
    this.strip.addEventListener('click', event => {
      const place = /** @type {HTMLElement} */ (event.target).dataset.record;
      if (place !== undefined) this.choose(Number(place));
    });
  }

  /**
   * @param {Volume} volume
   * @param {number} track
   * @param {TrackShape} facts
   */
  show(volume, track, facts) {
    this.at = null;
    find('track-title').textContent = trackName(track, volume.heads);
    const fill = find('fill'), { unreadable, used, records } = facts;
    fill.textContent = unreadable ?? `${counted(used)} of ${counted(volume.capacity)} bytes`;
    fill.className = unreadable ? 'bad' : 'soft number';
    this.#strip(volume, facts);
    if (unreadable !== null) {
      this.root.replaceChildren(
        make('p', { class: 'soft', style: 'padding: 10px 12px' }, 'The records of this track can’t be told apart.'));
      return;
    }
    const head =
      make('tr', {}, ...['', 'Identifier', 'Key', 'Data'].map((it, i) => make('th', { scope: 'col', class: i > 1 ? 'n' : null }, it)));
    const home =
      make('tr', {}, make('td', {}, make('abbr', { title: 'Home address' }, 'HA')), make('td', { colspan: 3 }, facts.homeAddress));
    this.root.replaceChildren(
      make('table', { 'aria-labelledby': 'track-title' }, make('thead', {}, head), make('tbody', {}, home, ...records.map((it, place) => this.#row(it, place)))));
  }

  /**
   * @param {import('./shapes.mjs').RecordShape} record
   * @param {number} place
   */
  #row(record, place) {
    const name = button(`R${place}`, () => this.choose(place),
      { class: 'plain', 'aria-pressed': false, 'aria-label': `Record ${place}, identifier ${record.identifier}` });
    const cells = [record.identifier, record.keyLength, record.dataLength].map((it, i) => make('td', { class: i ? 'n' : null }, it));
    return make('tr', { 'data-place': place }, make('td', {}, name), ...cells);
  }

  /**
   * Shows a record's bytes; the same record again shows those of the whole track.
   * @param {number} place
   */
  choose(place) {
    this.at = this.at === place ? null : place;
    for (const row of this.root.querySelectorAll('tr[data-place]')) {
      const isAt = Number(/** @type {HTMLElement} */ (row).dataset.place) === this.at;
      row.classList.toggle('at', isAt);
      row.querySelector('button')?.setAttribute('aria-pressed', String(isAt));
    }
    for (const part of this.strip.children)
      part.classList.toggle('at', this.at !== null && /** @type {HTMLElement} */ (part).dataset.record === String(this.at));
    this.hooks.record(this.at);
  }

  // The track along its length: each record's count area, key and data, as wide as their bytes, and what is free of it.
  /**
   * @param {Volume} volume
   * @param {TrackShape} facts
   */
  #strip(volume, { records, used }) {
    const parts = records.flatMap((record, place) => {
      const part = (/** @type {string} */ kind, /** @type {number} */ bytes) => make('i', {
        class: kind,
        style: `flex: ${bytes} 1 0`,
        'data-record': place,
        title: `R${place} ${record.identifier}: key ${record.keyLength}, data ${record.dataLength}`
      });
      return [
        part('count', COUNT_BYTES), ...(record.keyLength ? [part('key', record.keyLength)] : []),
        ...(record.dataLength ? [part('data', record.dataLength)] : [])
      ];
    });
    const taken = records.reduce((sum, it) => sum + COUNT_BYTES + it.keyLength + it.dataLength, 0), gaps = Math.max(0, used - taken);
    const free = make('i', {
      class: 'free',
      style: `flex: ${Math.max(0, volume.capacity - Math.max(used, taken)) + gaps} 1 0`,
      title: `${counted(Math.max(0, volume.capacity - used))} bytes free`
    });
    this.strip.replaceChildren(...parts, free);
  }
}

/** The pane of bytes and texts. */
export class Bytes {
  constructor() {
    this.root = find('bytes');
    this.fields = new FieldView(this.root);
  }

  /**
   * @param {string} title
   * @param {HTMLElement[]} actions
   */
  #head(title, actions) {
    find('bytes-title').textContent = title;
    find('bytes-actions').replaceChildren(...actions);
    this.root.scrollTop = 0;
  }

  /**
   * What `dasd dump` prints, with its columns told apart.
   * @param {string} title
   * @param {string} text
   * @param {HTMLElement[]} [actions]
   */
  dump(title, text, actions = []) {
    this.#head(title, actions);
    this.#lines(linesOf(text), line => dumpLine(line));
  }

  /**
   * A record as `dasd dump` prints it, and its fields by name: bytes and their meaning light up each other.
   * @param {string} title
   * @param {string} text
   * @param {import('./fields.mjs').Field[]} fields
   * @param {HTMLElement[]} actions
   */
  record(title, text, fields, actions) {
    this.#head(title, actions);
    this.fields.show(linesOf(text), fields);
  }

  /**
   * A text, with the numbers of its lines.
   * @param {string} title
   * @param {string} text
   * @param {HTMLElement[]} [actions]
   * @param {string} [fault]
   */
  text(title, text, actions = [], fault = '') {
    this.#head(title, actions);
    const lines = linesOf(text), digits = String(lines.length).length;
    this.#lines(lines, (line, number) => [make('span', { class: 'line-number' }, `${String(number + 1).padStart(digits)}  `), line]);
    if (fault) this.root.prepend(make('p', { class: 'bad', style: 'padding: 8px 12px 0' }, fault));
    if (!lines.length && !fault) this.root.replaceChildren(make('p', { class: 'soft', style: 'padding: 10px 12px' }, 'It is empty.'));
  }

  /**
   * @param {string[]} lines
   * @param {(line: string, number: number) => (Node | string)[]} shown
   */
  #lines(lines, shown) {
    const body = make('pre'), some = lines.slice(0, MOST_LINES);
    for (const [number, line] of some.entries()) body.append(...shown(line, number), '\n');
    const rest = lines.length - some.length;
    const more = rest > 0 ?
      [make('p', { class: 'soft', style: 'padding: 0 12px 12px' }, `${amount(rest, 'more line')}: taken out as a file it is whole.`)] :
      [];
    this.root.replaceChildren(body, ...more);
  }
}

// A line of a dump: `K` or `D`, the offset, sixteen bytes, and the same in EBCDIC.
/**
 * @param {string} line
 * @returns {(Node | string)[]}
 */
export function dumpLine(line) {
  const parts = /^( *[KD] [0-9A-F]{6}  )((?:[0-9A-F]{2} ){1,16} *)( .*)$/.exec(line);
  if (!parts) return [make('span', { class: 'head-line' }, line)];
  return [make('span', { class: 'offset' }, parts[1]), parts[2], make('span', { class: 'ebcdic' }, parts[3])];
}

/**
 * A track as `dasd` names it: cylinder and head in hexadecimal.
 * @param {number} track
 * @param {number} heads
 */
export const trackDigits = (track, heads) => `${hex(Math.floor(track / heads), 4)} ${hex(track % heads, 4)}`;

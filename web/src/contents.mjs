// @ts-check
// The table of contents: the label, data sets with their members, what was found in them, and what is wrong with the volume.

import { amount, button, counted, find, hex, make } from './dom.mjs';
import { drawnWith } from './picture_tracks.mjs';

/** @typedef {import('./shapes.mjs').Volume} Volume */
/** @typedef {import('./shapes.mjs').DataSet} DataSet */
/** @typedef {import('./shapes.mjs').Member} Member */
/** @typedef {import('./shapes.mjs').Hit} Hit */

const MOST = 400;

/**
 * What stands for a data set.
 * @param {number} set
 */
export function swatch(set) {
  const { colour, hatching } = drawnWith(set);
  return make('span', { class: 'swatch', 'data-hatching': hatching || null, style: `--of: var(--set-${colour})`, 'aria-hidden': 'true' });
}

/** The pane of data sets. */
export class Contents {
  /**
   * @param {{set: (set: number | null) => void, member: (set: number, name: string) => void, members: (set: number) => Promise<Member[]>,
   *   track: (track: number) => void, search: (text: string) => Promise<Hit[]>, takeAll: () => void}} hooks
   */
  constructor(hooks) {
    this.hooks = hooks;
    this.root = find('contents');
    /** @type {Volume | null} */
    this.volume = null;
    /** @type {Map<number, Member[]>} the members of the libraries that are open */
    this.open = new Map();
    /** @type {{set: number, member: string | null} | null} */
    this.at = null;
    this.field = /** @type {HTMLInputElement} */ (find('find'));
    this.inText = /** @type {HTMLInputElement} */ (find('find-text'));
    this.asked = 0;
    find('take-all').addEventListener('click', () => hooks.takeAll());
    find('search').addEventListener('submit', event => {
      event.preventDefault();
      this.#find();
    });
    this.field.addEventListener('input', () => {
      if (!this.inText.checked) this.#find();
    });
    this.inText.addEventListener('change', () => this.#find());
  }

  /**
   * @param {Volume} volume
   * @param {boolean} isSame whether it is the volume that was shown, changed
   */
  show(volume, isSame = false) {
    this.volume = volume;
    if (!isSame) {
      this.open.clear();
      this.at = null;
      this.field.value = '';
    }
    const { label, sets } = volume;
    find('contents-title').textContent = label ? `Volume ${label.serial}` : 'No volume label';
    find('free').textContent = label ?
      [label.owner.trim() && `owner ${label.owner.trim()}`, label.freeTracks !== null && `${amount(label.freeTracks, 'track')} free`]
        .filter(Boolean).join(', ') :
      '';
    for (const id of ['take-all', 'find']) /** @type {HTMLButtonElement} */
      (find(id)).disabled = !sets.length;
    this.draw();
  }

  draw() {
    const volume = /** @type {Volume} */ (this.volume), wanted = this.inText.checked ? '' : this.field.value.trim().toUpperCase();
    const rows = volume.sets.flatMap((set, number) => this.#rowsOf(set, number, wanted));
    const table = make('table', { 'aria-labelledby': 'contents-title' },
      make('thead', {},
        make('tr', {},
          ...['Data set', 'Org', 'Format', 'Lrecl', 'Blksz', 'Tracks'].map(
            (it, i) => make('th', { class: i > 2 ? 'n' : null, scope: 'col' }, it)))),
      make('tbody', {}, ...rows));
    const nothing = make('p', { class: 'soft', style: 'padding: 10px 12px' },
      wanted ? 'No name has this in it.' : 'No data sets: the volume has no label or no table of contents.');
    this.root.replaceChildren(rows.length ? table : nothing, ...this.#findings());
  }

  /**
   * The row of a data set, and those of its members where they are shown.
   * @param {DataSet} set
   * @param {number} number
   * @param {string} wanted
   */
  #rowsOf(set, number, wanted) {
    const members = this.open.get(number), fitting = wanted && members ? members.filter(it => it.name.includes(wanted)) : members;
    const isFound = !wanted || set.name.includes(wanted) || Boolean(fitting?.length);
    if (!isFound) return [];
    return [
      this.#row(set, number),
      ...(fitting && !set.name.includes(wanted) || !wanted ? fitting ?? [] : members ?? []).map(it => this.#memberRow(number, it))
    ];
  }

  /**
   * @param {DataSet} set
   * @param {number} number
   */
  #row(set, number) {
    const isLibrary = set.organisation === 'PO', isOpen = this.open.has(number);
    const turn = isLibrary ? button(isOpen ? '▾' : '▸', () => this.turn(number),
                               { class: 'turn', 'aria-expanded': isOpen, 'aria-label': `Members of ${set.name}` }) :
                             make('span', { class: 'turn' });
    const isAt = this.at?.set === number && this.at.member === null;
    const name = button(set.name, () => this.choose(number), { class: 'plain', 'aria-pressed': isAt });
    const share = set.tracks ? Math.min(100, (100 * set.used) / set.tracks) : 0;
    const meter = make('span', { class: 'meter', 'aria-hidden': 'true' },
      make('i', { style: `width:${share}%;background:var(--set-${drawnWith(number).colour})` }));
    const cells = [set.organisation, set.format].map(it => make('td', {}, it)),
          numbers = [set.recordLength, set.blockLength].map(it => make('td', { class: 'n' }, it));
    const tracks = make('td', { class: 'n', title: `${amount(set.used, 'track')} used of ${counted(set.tracks)}` },
      `${counted(set.used)} of ${counted(set.tracks)}`, meter);
    return make('tr', { class: isAt ? 'at' : null }, make('td', {}, make('span', { class: 'set-name' }, turn, swatch(number), name)),
      ...cells, ...numbers, tracks);
  }

  /**
   * @param {number} number
   * @param {Member} member
   */
  #memberRow(number, member) {
    const isAt = this.at?.set === number && this.at.member === member.name;
    const name = button(member.name, () => {
      this.at = { set: number, member: member.name };
      this.draw();
      this.hooks.member(number, member.name);
    }, { class: 'plain', 'aria-pressed': isAt });
    const size = member.fault ? make('td', { colspan: 5, class: 'bad' }, member.fault) :
                                make('td', { colspan: 5, class: 'n' }, amount(member.bytes, 'byte'));
    return make('tr', { class: `member${isAt ? ' at' : ''}` }, make('td', {}, name), size);
  }

  /**
   * Lights a data set, or no more.
   * @param {number} number
   */
  choose(number) {
    const isAt = this.at?.set === number && this.at.member === null;
    this.at = isAt ? null : { set: number, member: null };
    this.draw();
    this.hooks.set(isAt ? null : number);
  }

  /**
   * Opens or closes the members of a library.
   * @param {number} number
   */
  async turn(number) {
    if (this.open.has(number)) this.open.delete(number);
    else {
      this.open.set(number, []);
      this.open.set(number, await this.hooks.members(number));
    }
    this.draw();
    /** @type {HTMLElement | null} */ (this.root.querySelectorAll('tr:not(.member) .turn')[number])?.focus?.();
  }

  /** @returns {HTMLElement[]} */
  #findings() {
    const volume = /** @type {Volume} */ (this.volume), grave = volume.findings.filter(it => it.severity !== 'note'),
          notes = volume.findings.filter(it => it.severity === 'note');
    const list = (/** @type {typeof grave} */ all) => make('ul', {}, ...all.slice(0, MOST).map(it => this.#finding(it)),
      all.length > MOST && make('li', { class: 'soft' }, `and ${counted(all.length - MOST)} more`));
    const parts = [];
    if (grave.length) parts.push(make('section', { class: 'findings', id: 'findings' }, make('h3', {}, 'Findings'), list(grave)));
    if (notes.length)
      parts.push(make('details', { class: 'findings' },
        make('summary', { class: 'soft', style: 'padding: 0 12px; cursor: pointer' }, amount(notes.length, 'note')), list(notes)));
    return parts;
  }

  /** @param {import('./shapes.mjs').Finding} finding */
  #finding(finding) {
    const { heads } = /** @type {Volume} */ (this.volume), { track, severity, text } = finding;
    const where = track < 0 ? '' : `${hex(Math.floor(track / heads), 4)} ${hex(track % heads, 4)}`;
    const words = [
      make('span', { class: `swatch ${severity}`, 'aria-hidden': 'true' }), make('span', { class: 'hidden' }, severity),
      make('span', { class: 'mono' }, where), make('span', {}, text)
    ];
    const go = button('', () => this.hooks.track(track), { class: 'plain' });
    go.append(words[2], ' ', words[3]);
    return make('li', {}, words[0], words[1], track < 0 ? words[3] : go);
  }

  async #find() {
    const text = this.field.value.trim(), asked = ++this.asked;
    if (!this.volume || !this.inText.checked || !text) return this.volume && this.draw();
    this.root.replaceChildren(
      make('p', { class: 'soft', style: 'padding: 10px 12px', role: 'status' }, 'Looking through all data sets and members …'));
    const hits = await this.hooks.search(text);
    if (asked === this.asked) this.#hits(hits, text);
  }

  /**
   * @param {Hit[]} hits
   * @param {string} text
   */
  #hits(hits, text) {
    const told = hits.length ? `${amount(hits.length, 'line')}${hits.length >= MOST ? ' and maybe more' : ''} with “${text}”` :
                               `No line has “${text}”.`;
    this.root.replaceChildren(
      make('p', { class: 'soft', style: 'padding: 8px 12px', role: 'status' }, told), ...hits.map(hit => this.#hit(hit, text)));
  }

  /**
   * @param {Hit} hit
   * @param {string} text
   */
  #hit(hit, text) {
    const at = hit.text.toUpperCase().indexOf(text.toUpperCase()), from = Math.max(0, at - 24);
    const line = make('span', { class: 'mono' }, from ? '…' : '', hit.text.slice(from, at),
      make('mark', {}, hit.text.slice(at, at + text.length)), hit.text.slice(at + text.length, at + 80));
    const go = () => (hit.member ? this.hooks.member(hit.set, hit.member) : this.hooks.set(hit.set));
    return make('div', { class: 'hit' }, button(`${hit.name}, line ${hit.line}`, go, { class: 'plain' }), line);
  }
}

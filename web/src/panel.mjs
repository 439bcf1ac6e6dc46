// @ts-check
// The machine's panel: lamps for subchannels, arms, sense, channel address word and channel status word, and main storage beside it.

import { find, hex, make } from './dom.mjs';
import { LETTERS } from './ebcdic.mjs';

/** @typedef {import('./shapes.mjs').State} State */
/** @typedef {import('./stepper.mjs').ChannelAt} ChannelAt */
/** @typedef {import('./stepper.mjs').DriveAt} DriveAt */

const UNIT_STATUS = [
  ['ATTN', 'attention'], ['SM', 'status modifier'], ['CUE', 'control unit end'], ['BUSY', 'busy'], ['CE', 'channel end'],
  ['DE', 'device end'], ['UC', 'unit check'], ['UE', 'unit exception']
];
const CHANNEL_STATUS = [
  ['PCI', 'program-controlled interruption'], ['IL', 'incorrect length'], ['PRG', 'program check'], ['PROT', 'protection check'],
  ['CDC', 'channel data check'], ['CCC', 'channel control check'], ['IFC', 'interface control check'], ['CHN', 'chaining check']
];
const SENSE = [
  [
    ['CMD REJ', 'command reject'], ['INTV', 'intervention required'], ['BUS OUT', 'bus out check'], ['EQUIP', 'equipment check'],
    ['DATA', 'data check'], ['OVRUN', 'overrun'], ['TRK CND', 'track condition check'], ['SEEK', 'seek check']
  ],
  [
    ['CNT CHK', 'data check in count area'], ['TRK OVR', 'track overrun'], ['END CYL', 'end of cylinder'], ['INV SEQ', 'invalid sequence'],
    ['NO REC', 'no record found'], ['FILE PR', 'file protected'], ['NO AM', 'missing address marker'], ['OVFL', 'overflow incomplete']
  ],
];
const ALARMS = new Set(['UC', 'UE', 'IL', 'PRG', 'PROT', 'CDC', 'CCC', 'IFC', 'CHN']);
const NOTHING = /^0*$/;

/**
 * Names of the bits of a byte that are on.
 * @param {string[][]} names
 * @param {number} byte
 */
const namesOn = (names, byte) => names.filter((_, bit) => byte & (0x80 >> bit)).map(it => it[1]);

/**
 * A lamp.
 * @param {boolean} isOn
 * @param {boolean} [isAlarm]
 */
const lamp = (isOn, isAlarm = false) => make('i', { class: `lamp${isOn ? ' on' : ''}${isOn && isAlarm ? ' alarm' : ''}` });

/**
 * Eight lamps with their names below.
 * @param {string} title
 * @param {string[][]} names
 * @param {number} byte
 * @param {boolean} [isSense]
 */
function named(title, names, byte, isSense = false) {
  const on = namesOn(names, byte);
  const lamps = names.map(
    ([short, long], bit) => make('span', { class: 'named', title: long }, lamp(Boolean(byte & (0x80 >> bit)), isSense || ALARMS.has(short)),
      make('small', { class: byte & (0x80 >> bit) ? 'on' : null }, short)));
  return row(title, byte ? hex(byte, 2) : '',
    make('div', { class: 'lamps', role: 'img', 'aria-label': `${title} ${hex(byte, 2)}: ${on.join(', ') || 'no bit'}` }, ...lamps));
}

/**
 * A number in lamps, four to a digit, which stands below.
 * @param {string} title
 * @param {number} number
 * @param {number} bits
 * @param {string} words
 */
function register(title, number, bits, words) {
  const groups = Array.from({ length: bits / 4 }, (_, at) => {
    const digit = Math.floor(number / 16 ** (bits / 4 - 1 - at)) % 16;
    return make('span', { class: 'digit' }, ...[8, 4, 2, 1].map(bit => lamp(Boolean(digit & bit))),
      make('small', { class: digit ? 'on' : null }, hex(digit, 1)));
  });
  return row(title, words, make('div', { class: 'lamps', role: 'img', 'aria-label': `${title}: ${hex(number, bits / 4)}` }, ...groups));
}

/**
 * @param {string} title
 * @param {string} words
 * @param {HTMLElement} lamps
 */
const row = (title, words, lamps) =>
  make('div', { class: 'panel-row' }, make('span', { class: 'panel-title' }, title, make('b', {}, words)), lamps);

/** The panel and storage. */
export class Panel {
  /**
   * @param {{explain: (kind: string, digits: string) => Promise<string>, from: () => void}} hooks
   * `from`: storage from another address is wanted
   */
  constructor(hooks) {
    this.hooks = hooks;
    this.from = 0x40;
    this.asked = 0;
    this.lamps = make('div', { id: 'panel' });
    this.words = make('pre', { id: 'words' });
    this.field = /** @type {HTMLInputElement} */ (make('input', {
      type: 'text',
      id: 'from',
      class: 'short mono',
      value: '000040',
      'aria-label': 'Main storage from this address, hexadecimal',
      maxlength: 6,
      spellcheck: 'false'
    }));
    this.storage = make('pre', { id: 'storage', tabindex: 0, 'aria-label': 'Main storage' });
    this.field.addEventListener('change', () => {
      this.from = (parseInt(this.field.value, 16) || 0) & ~15;
      this.field.value = hex(this.from, 6);
      hooks.from();
    });
    find('machine').replaceChildren(
      this.lamps, this.words, make('div', { class: 'bar storage-bar' }, make('h3', {}, 'Main storage from'), this.field), this.storage);
    this.clear();
  }

  clear() {
    this.asked++;
    this.lamps.replaceChildren(make('p', { class: 'panel-empty' }, 'Run a deck: its machine is shown here, moment by moment.'));
    this.words.textContent = this.storage.textContent = find('answer').textContent = '';
  }

  /**
   * Shows the machine of a moment.
   * @param {State} state its last range of storage is the one that is shown
   * @param {string} running the line of the trace of the word that runs
   */
  show(state, running) {
    const drives = state.channels.flatMap(it => it.drives), { csw, caw } = state;
    find('answer').textContent = state.answer;
    this.lamps.replaceChildren(...state.channels.map(channelRow), ...drives.flatMap(it => driveRows(it, drives.length > 1)),
      register('CAW', parseInt(caw.digits, 16), 32, `key ${caw.key}`),
      register('CSW', parseInt(csw.digits.slice(0, 8), 16), 32, `key ${csw.key}`), named('Unit', UNIT_STATUS, csw.unitStatus),
      named('Channel', CHANNEL_STATUS, csw.channelStatus), register('Count', csw.count, 16, String(csw.count)));
    this.#explain(state, drives, running);
    const shown = state.storage.at(-1);
    if (shown) this.#storage(shown);
  }

  // The word that runs, and what the program says of the status and of the sense bytes.
  /**
   * @param {State} state
   * @param {DriveAt[]} drives
   * @param {string} running
   */
  async #explain(state, drives, running) {
    const asked = ++this.asked, sense = drives.find(it => !NOTHING.test(it.sense))?.sense;
    const texts = await Promise.all(
      [NOTHING.test(state.csw.digits) ? '' : this.hooks.explain('csw', state.csw.digits), sense ? this.hooks.explain('sense', sense) : '']);
    if (asked !== this.asked) return;
    const now = running &&
      make('p', { class: 'running' }, make('b', {}, 'At work: '), make('span', { class: 'mono' }, running.trim().replace(/  +/g, '  ')));
    this.words.replaceChildren(now || '', texts.filter(Boolean).join(''));
  }

  /** @param {State['storage'][number]} shown */
  #storage({ at, bytes, changed }) {
    const isChanged = new Set(changed), lines = [];
    for (let from = 0; from < bytes.length; from += 16)
      lines.push(...storageLine(at + from, bytes.subarray(from, from + 16), offset => isChanged.has(from + offset)), '\n');
    this.storage.replaceChildren(...lines);
  }
}

/**
 * @param {number} at
 * @param {Uint8Array} bytes
 * @param {(offset: number) => boolean} isChanged
 * @returns {(Node | string)[]}
 */
function storageLine(at, bytes, isChanged) {
  const parts = /** @type {(Node | string)[]} */ ([make('span', { class: 'offset' }, `${hex(at, 6)}  `)]);
  bytes.forEach(
    (byte, offset) => parts.push(isChanged(offset) ? make('mark', {}, hex(byte, 2)) : hex(byte, 2), offset % 4 === 3 ? ' ' : ''));
  return [...parts, make('span', { class: 'ebcdic' }, ` ${Array.from(bytes, it => LETTERS[it]).join('')}`)];
}

/** @param {ChannelAt} channel */
function channelRow({ number, subchannel, device, asked }) {
  const on = [subchannel === 'available', subchannel === 'working', subchannel === 'ended', asked];
  const lamps = ['FREE', 'WORKING', 'ENDED', 'PCI'].map(
    (name, at) => make('span', { class: 'named wide' }, lamp(on[at]), make('small', { class: on[at] ? 'on' : null }, name)));
  const whose = device === null ? '' : `for ${hex(device, 3)}`;
  const said = `Subchannel of channel ${number}: ${subchannel} ${whose}${asked ? ', a word asked for an interruption' : ''}`;
  return row(`Channel ${number}`, whose, make('div', { class: 'lamps', role: 'img', 'aria-label': said }, ...lamps));
}

/**
 * @param {DriveAt} drive
 * @param {boolean} isOneOfSeveral sense bytes are shown where there are any
 */
function driveRows(drive, isOneOfSeveral) {
  const { address, model, cylinders, cylinder, head, arm, sense } = drive, bytes = (sense.match(/../g) ?? []).map(it => parseInt(it, 16));
  const lamps =
    ['at rest', 'in motion', 'arrived'].map((state, at) => make('span', { class: 'named wide' }, lamp(arm === state),
                                              make('small', { class: arm === state ? 'on' : null }, ['AT REST', 'MOVES', 'ARRIVED'][at])));
  const way = make('span', { class: 'arm-way' }, make('i', { style: `left:${cylinders > 1 ? (100 * cylinder) / (cylinders - 1) : 0}%` }));
  const said = `Drive ${hex(address, 3)}, ${model}: arm ${arm}, cylinder ${cylinder}, head ${head}`;
  const first = row(
    `Drive ${hex(address, 3)}`, `${cylinder} / ${head}`, make('div', { class: 'lamps', role: 'img', 'aria-label': said }, ...lamps, way));
  if (isOneOfSeveral && NOTHING.test(sense)) return [first];
  const rest = NOTHING.test(sense.slice(4)) ? [] : [make('p', { class: 'panel-empty' }, `sense bytes 2 to 5: ${sense.slice(4)}`)];
  return [first, named('Sense 0', SENSE[0], bytes[0], true), named('Sense 1', SENSE[1], bytes[1], true), ...rest];
}

// @ts-check
// What a page asks of a volume, as `dasd` answers it: each call is a run of the program, whose objects of --json are read here.
//
// The program sees the files under names of its own, so a name that a visitor's file has does not matter.

import { tracksOfExtent } from './extents.mjs';
import { faultText, refusal, textOf } from './program.mjs';
import { tarOf } from './tar.mjs';

/**
 * The files of one image by name, in their order.
 * @typedef {Map<string, Uint8Array | import('./image.mjs').Image>} Files
 */
/** @typedef {{ model: number, cylinders: number, heads: number, slotSize: number }} Geometry */
/** @typedef {{ identifier: string, keyLength: number, dataLength: number }} RecordShape */
/**
 * A track: its records and how many bytes they take of `capacity`; or why it can't be read, and then it has no records.
 * @typedef {{ cylinder: number, head: number, homeAddress: string, used: number, records: RecordShape[],
 *   unreadable: string | null }} TrackShape
 */
/**
 * `severity` is error, warning or note; `cylinder` and `head` are null for a finding of the header.
 * @typedef {{ severity: string, cylinder: number | null, head: number | null, kind: string, text: string }} Finding
 */
/**
 * Of cylinder, head, to cylinder, head.
 * @typedef {[number, number, number, number]} Extent
 */
/**
 * `extentTypes` has the type of each of the extents; it is empty where an older program does not tell them.
 * @typedef {{ name: string, created: string | null, expires: string | null, organisation: string, format: string, recordLength: number,
 *   blockLength: number, keyLength: number, tracks: number, used: number, extents: Extent[], extentTypes: number[] }} DataSet
 */
/**
 * The last three are null where the volume has no table of contents.
 * @typedef {{ serial: string, owner: string, freeTracks: number | null, freeBlocks: number | null, contents: Extent | null }} Label
 */
/**
 * What is wrong with the table of contents.
 * @typedef {{ cylinder: number, head: number, record: number, kind: string, text: string }} ContentsFault
 */
/**
 * @typedef {object} Look
 * @property {Geometry} geometry
 * @property {number} capacity bytes of a track of this drive
 * @property {TrackShape[]} tracks by cylinder, and by head in it: the place of a track is cylinder * heads + head
 * @property {Finding[]} findings
 * @property {{ errors: number, warnings: number, notes: number }} sums
 * @property {Label | null} label
 * @property {DataSet[]} dataSets
 * @property {ContentsFault[]} contentsFaults
 * @property {Int16Array} owners for each track the place of the data set that owns it, or -1
 */
/**
 * What stands of a record that is dumped.
 * @typedef {{ identifier: string, key: Uint8Array, data: Uint8Array }} RecordBytes
 */
/**
 * A track that is dumped: `text` is the program's; `unreadable` says why it has no records.
 * @typedef {{ text: string, homeAddress: string, unreadable: string | null, records: RecordBytes[] }} TrackBytes
 */
/**
 * A data set, or a member of one, as `extract --all` takes it out; `finding` says why it is not whole.
 * @typedef {{ name: string, dataSet: string, member: string | null, bytes: number, finding: string | null }} Unloaded
 */
/**
 * A line of a text in which something was found.
 * @typedef {{ name: string, line: number, text: string }} Hit
 */
/**
 * How a track differs, in the program's words.
 * @typedef {{ cylinder: number, head: number, differences: string[] }} TrackDifference
 */
/**
 * `geometry` says how the geometries differ, where they do, and then no track is compared.
 * @typedef {{ same: boolean, geometry: string | null, tracks: TrackDifference[], text: string }} Compared
 */

/**
 * Bytes of a track (IBM 2841 and 2314 component descriptions, 'Track Capacity').
 * @type {Record<number, number>}
 */
// c/interface.toml: begin
const CAPACITY = { 2311: 3625, 2314: 7294 };
// c/interface.toml: end
/** The file that `extract --all` writes beside those of data sets and members: what labels and directories say of them. */
const FORMS = 'data_sets.txt';
/** So many lines are found at most. */
const MOST_HITS = 500;

/** @param {string} text */
function objects(text) { return text.split('\n').filter(Boolean).map(it => JSON.parse(it)); }

/** @param {string} digits */
function dataOf(digits) { return Uint8Array.from(digits.match(/../g) ?? [], it => parseInt(it, 16)); }

/**
 * The name under which a file of a volume stands for the program.
 * @param {string} side
 * @param {number} place
 */
function ownName(side, place) { return `${side}_${place + 1}.ckd`; }

/**
 * The same files under the program's names.
 * @param {Files} files
 * @param {string} [side]
 * @returns {Files}
 */
function renamed(files, side = 'volume') {
  return new Map([...files.values()].map((bytes, place) => [ownName(side, place), bytes]));
}

/**
 * @param {any} it
 * @returns {TrackShape}
 */
function trackShape(it) {
  const records = (it.records ?? []).map((/** @type {any} */ record) =>
    ({ identifier: record.identifier, keyLength: record.key_length, dataLength: record.data_length }));
  const { cylinder, head, home_address: homeAddress = '', used = 0, unreadable = null } = it;
  return { cylinder, head, homeAddress, used, records, unreadable };
}

/**
 * @param {any} it
 * @returns {DataSet}
 */
function dataSet(it) {
  return {
    name: it.name, created: it.created, expires: it.expires, organisation: it.organisation, format: it.format,
    recordLength: it.record_length,
    blockLength: it.block_length, keyLength: it.key_length, tracks: it.tracks, used: it.used, extents: it.extents,
    extentTypes: it.extent_types ?? [],
  };
}

/**
 * @param {any} it
 * @returns {Label}
 */
function labelOf(it) {
  const { serial, owner, free_tracks: freeTracks = null, free_blocks: freeBlocks = null, contents = null } = it;
  return { serial, owner, freeTracks, freeBlocks, contents };
}

/**
 * @param {any} it
 * @returns {Unloaded}
 */
function unloaded(it) {
  const member = /^(.*)\((.*)\)$/s.exec(it.name);
  const [dataSet, own] = member ? [member[1], member[2]] : [it.name, null];
  return { name: it.name, dataSet, member: own, bytes: it.bytes ?? 0, finding: it.text ?? null };
}

/**
 * For each track the data set that owns it; the first of two that claim it.
 * @param {Geometry} geometry
 * @param {DataSet[]} sets
 */
function ownersOf(geometry, sets) {
  const owners = new Int16Array(geometry.cylinders * geometry.heads).fill(-1);
  sets.forEach((set, number) => set.extents.forEach((extent, at) => {
    for (const track of tracksOfExtent(extent, set.extentTypes[at], geometry.heads, owners.length)) {
      if (owners[track] < 0) owners[track] = number;
    }
  }));
  return owners;
}

/**
 * The differences of each track together.
 * @param {any[]} found
 * @returns {TrackDifference[]}
 */
function tracksOf(found) {
  /** @type {Map<string, TrackDifference>} */
  const tracks = new Map();
  for (const { cylinder, head, text } of found) {
    /** @type {TrackDifference} */
    const track = tracks.get(`${cylinder} ${head}`) ?? { cylinder, head, differences: [] };
    track.differences.push(String(text));
    tracks.set(`${cylinder} ${head}`, track);
  }
  return [...tracks.values()];
}

export class Volumes {
  /** @param {import('./program.mjs').Program} program */
  constructor(program) { this.program = program; }

  /**
   * Runs a command over a volume's files. A run that fails and prints nothing is thrown with the program's words, and so is each with a fault
   * whose objects are read.
   * @param {string[]} words
   * @param {Files} files
   * @param {string[]} [behind]
   * @param {string[]} [folders]
   */
  #run(words, files, behind = [], folders = []) {
    const own = renamed(files), ended = this.program.run([...words, ...own.keys(), ...behind], own, '', folders);
    const isRefused = words.includes('--json') ? ended.errors.length : !ended.output.length;
    if (ended.status && isRefused) throw refusal(ended);
    return ended;
  }

  /**
   * All that the page shows of a volume. REFUSED where the files are no image.
   * @param {Files} files
   * @returns {Look}
   */
  look(files) {
    const [head, ...tracks] = objects(textOf(this.#run(['list', '--json'], files).output));
    const geometry = { model: head.model, cylinders: head.cylinders, heads: head.heads, slotSize: head.slot_size };
    const shapes = tracks.map(trackShape);
    return { geometry, capacity: CAPACITY[head.model], tracks: shapes, ...this.#checked(files), ...this.#contents(files, geometry) };
  }

  /** @param {Files} files */
  #checked(files) {
    const found = objects(textOf(this.#run(['check', '--strict', '--json'], files).output));
    const { errors, warnings, notes } = found[found.length - 1];
    const findings = found.slice(0, -1).map(({ severity, cylinder = null, head = null, kind, text }) =>
      ({ severity, cylinder, head, kind, text }));
    return { findings, sums: { errors, warnings, notes } };
  }

  /**
   * @param {Files} files
   * @param {Geometry} geometry
   */
  #contents(files, geometry) {
    const all = objects(textOf(this.#run(['vtoc', '--json'], files).output));
    const label = all.find(it => 'serial' in it), dataSets = all.filter(it => it.extents).map(dataSet);
    const faults = all.filter(it => 'kind' in it).map(({ cylinder, head, record, kind, text }) => ({ cylinder, head, record, kind, text }));
    return { label: label ? labelOf(label) : null, dataSets, owners: ownersOf(geometry, dataSets), contentsFaults: faults };
  }

  /**
   * A track's records, or those of a number in their count area.
   * @param {Files} files
   * @param {number} cylinder
   * @param {number} head
   * @param {number} [record]
   * @returns {TrackBytes}
   */
  dump(files, cylinder, head, record) {
    const numbers = [cylinder, head, ...(record === undefined ? [] : [record])].map(String);
    const [first, ...records] = objects(textOf(this.#run(['dump', '--json'], files, numbers).output));
    return {
      text: textOf(this.#run(['dump'], files, numbers).output), homeAddress: first.home_address ?? '', unreadable: first.unreadable ?? null,
      records: records.map(it => ({ identifier: it.identifier, key: dataOf(it.key), data: dataOf(it.data) })),
    };
  }

  /**
   * Takes all out into files in memory: what the program says of each, and the files.
   * @param {Files} files
   * @param {boolean} text
   */
  #unload(files, text) {
    const ended = this.#run(['extract', '--json', ...(text ? ['--text'] : []), '--all', 'out'], files, [], ['out']);
    const taken = new Map([...ended.files].filter(([name]) => name.startsWith('out/')).map(([name, bytes]) =>
      [name.slice(4), /** @type {Uint8Array} */ (bytes)]));
    return { unloaded: objects(textOf(ended.output)).filter(it => 'name' in it).map(unloaded), taken };
  }

  /**
   * Each data set and member with its size.
   * @param {Files} files
   * @returns {Unloaded[]}
   */
  members(files) { return this.#unload(files, false).unloaded; }

  /**
   * All of them as a tar archive.
   * @param {Files} files
   * @param {{ text: boolean }} how
   * @returns {{ tar: Uint8Array, unloaded: Unloaded[] }}
   */
  archive(files, { text }) {
    const all = this.#unload(files, text);
    return { tar: tarOf(all.taken), unloaded: all.unloaded };
  }

  /**
   * The lines that have a text, of all data sets and members; 500 at most. Small letters and capitals are alike.
   * @param {Files} files
   * @param {string} wanted
   * @returns {Hit[]}
   */
  search(files, wanted) {
    /** @type {Hit[]} */
    const hits = [], capital = wanted.toUpperCase();
    const { taken } = this.#unload(files, true);
    taken.delete(FORMS);
    for (const [name, bytes] of taken) {
      const lines = textOf(bytes).split('\n');
      for (let line = 0; line < lines.length && hits.length < MOST_HITS; line++) {
        if (lines[line].toUpperCase().includes(capital)) hits.push({ name, line: line + 1, text: lines[line] });
      }
    }
    return hits;
  }

  /**
   * A data set, or a member as NAME(MEMBER); `fault` says why it is not whole. REFUSED where there is none.
   * @param {Files} files
   * @param {string} name
   * @param {{ text: boolean }} how
   * @returns {{ bytes: Uint8Array, fault: string | null }}
   */
  extract(files, name, { text }) {
    const ended = this.#run(['extract', ...(text ? ['--text'] : [])], files, [name]);
    return { bytes: ended.output, fault: ended.errors.length ? faultText(ended) : null };
  }

  /**
   * Two volumes, track by track.
   * @param {Files} one
   * @param {Files} other
   * @returns {Compared}
   */
  compare(one, other) {
    const both = [renamed(one, 'one'), renamed(other, 'other')], names = both.map(it => [...it.keys()].join('+'));
    const files = new Map([...both[0], ...both[1]]);
    const ended = this.program.run(['compare', '--json', ...names], files);
    if (ended.errors.length) throw refusal(ended);
    const found = objects(textOf(ended.output)), tracks = tracksOf(found.filter(it => 'cylinder' in it));
    const geometry = found.find(it => 'text' in it && !('cylinder' in it));
    const text = textOf(this.program.run(['compare', ...names], files).output);
    return { same: ended.status === 0, geometry: geometry ? geometry.text : null, tracks, text };
  }

  /**
   * A new image.
   * @param {number} model
   * @param {number} cylinders
   * @returns {Uint8Array}
   */
  format(model, cylinders) {
    const ended = this.program.run(['format', 'new.ckd', '--model', String(model), '--cylinders', String(cylinders)]);
    if (ended.status) throw refusal(ended);
    return /** @type {Uint8Array} */ (ended.files.get('new.ckd'));
  }

  /**
   * Digits in words, as `dasd explain` says them.
   * @param {'csw' | 'sense' | 'ccw'} kind
   * @param {string} digits
   */
  explain(kind, digits) {
    const ended = this.program.run(['explain', kind, digits]);
    if (ended.status) throw refusal(ended);
    return textOf(ended.output);
  }
}

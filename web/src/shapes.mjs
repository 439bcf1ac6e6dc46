// @ts-check
// What the views are given: a volume as lists by track, made of what the program says of it. A track's number is its cylinder times the
// heads of the drive, and its head.

/** @typedef {import('./volume.mjs').Look} Look */
/** @typedef {import('./volume.mjs').DataSet} DataSet */
/** @typedef {import('./volume.mjs').Label} Label */
/** @typedef {import('./volume.mjs').TrackShape} TrackShape */
/** @typedef {import('./volume.mjs').RecordShape} RecordShape */
/** @typedef {import('./stepper.mjs').State} State */
/** @typedef {import('./examples.mjs').Example} Example */

/** @typedef {{track: number, severity: 'error' | 'warning' | 'note', text: string}} Finding `track` is -1 where it is of none */
/** @typedef {{name: string, whole: string, bytes: number, fault: string}} Member `whole`: as SYS1.MACLIB(OPEN) */

/**
 * A line of a data set or of a member in which a text was found.
 * @typedef {{name: string, set: number, member: string | null, line: number, text: string}} Hit
 */

/** @typedef {{track: number, text: string}} Difference how a track differs of another volume's */

/**
 * @typedef {object} Volume
 * @property {number} number the engine's
 * @property {string} name the names of its files
 * @property {number} bytes the length of its files together
 * @property {string} [origin] what it was made of, as an address has it: example, or model and cylinders as 2314 5
 * @property {number} model 2311 or 2314
 * @property {number} cylinders
 * @property {number} heads
 * @property {number} capacity the bytes that a track has for records
 * @property {TrackShape[]} tracks
 * @property {Uint16Array} used the bytes that the records of each track take
 * @property {Uint16Array} counts how many records each track has
 * @property {Int16Array} owner the data set that each track belongs to, or -1
 * @property {Label | null} label
 * @property {DataSet[]} sets
 * @property {Finding[]} findings what a strict check and the table of contents found
 * @property {{errors: number, warnings: number, notes: number}} sums
 */

/** What a pack that was never given a label has: no fault of its tracks. */
const UNLABELLED = new Set(['no volume label', 'no volume table of contents']);

/**
 * The shape of a look.
 * @param {number} number
 * @param {string} name
 * @param {number} bytes
 * @param {Look} look
 * @returns {Volume}
 */
export function volumeOf(number, name, bytes, look) {
  const { model, cylinders, heads } = look.geometry,
                                  place = (/** @type {{cylinder: number | null, head: number | null}} */ it) =>
                                    (it.cylinder === null || it.head === null ? -1 : it.cylinder * heads + it.head);
  const found = look.findings.map(it => ({ track: place(it), severity: /** @type {Finding['severity']} */ (it.severity), text: it.text }));
  const ofContents = look.contentsFaults.map(it => ({
    track: place(it),
    severity: UNLABELLED.has(it.kind) ? /** @type {const} */ ('note') : /** @type {const} */ ('error'),
    text: it.text
  }));
  return {
    number,
    name,
    bytes,
    model,
    cylinders,
    heads,
    capacity: look.capacity,
    tracks: look.tracks,
    used: Uint16Array.from(look.tracks, it => Math.min(it.used, 0xFFFF)),
    counts: Uint16Array.from(look.tracks, it => it.records.length),
    owner: look.owners,
    label: look.label,
    sets: look.dataSets,
    findings: [...ofContents, ...found],
    sums: look.sums,
  };
}

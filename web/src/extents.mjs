// @ts-check
// Which tracks extents have. A track's number is its cylinder times the heads of the drive, and its head.

/** @typedef {import('./volume.mjs').Extent} Extent */
/** @typedef {import('./volume.mjs').DataSet} DataSet */

/** The type of an extent that shares its cylinders with other data sets: on each of them it has the heads from its first to its last alone. */
export const SHARED = 0x80;

/**
 * The tracks of an extent, in their order. One that shares no cylinders is a run of tracks.
 * @param {Extent} extent
 * @param {number | undefined} type undefined where an older program does not tell it
 * @param {number} heads
 * @param {number} [end] tracks from this one on are left out
 */
export function tracksOfExtent([first, head, last, lastHead], type, heads, end = Infinity) {
  /** @type {number[]} */
  const tracks = [];
  const put = (/** @type {number} */ from, /** @type {number} */ to) => {
    for (let track = from; track <= to && track < end; track++) tracks.push(track);
  };
  if (type !== SHARED) put(first * heads + head, last * heads + lastHead);
  else for (let at = first; at <= last && at * heads < end; at++) put(at * heads + head, at * heads + Math.min(lastHead, heads - 1));
  return tracks;
}

/**
 * The tracks of a data set, in its order. A label may name any: those that the volume does not have are left out.
 * @param {DataSet} set
 * @param {number} heads
 * @param {number} end how many tracks the volume has
 */
export function tracksOf(set, heads, end) {
  return set.extents.flatMap((extent, at) => tracksOfExtent(extent, set.extentTypes[at], heads, end));
}

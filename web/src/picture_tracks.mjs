// @ts-check
// The cells of the picture: what is on a track by its colour, how full it is by how deep that is, and what is wrong by a mark.

import { SHARED } from './extents.mjs';

/** @typedef {import('./shapes.mjs').Volume} Volume */
/** @typedef {import('./shapes.mjs').DataSet} DataSet */
/** @typedef {import('./picture.mjs').Layout} Layout */
/** @typedef {{lit: Set<number> | null, changed: Set<number>, scale: number}} Marks */
/** @typedef {{ink: string, sheet: string, soft: string, bare: string, alarm: string, caution: string, blue: string, sets: string[]}} Colours */

/** So many colours tell data sets apart; those beyond have the same colours again with another hatching, and so on. */
export const COLOURS = 8;
export const HATCHINGS = 5;

/**
 * What a data set is drawn with: a colour, and a hatching, 0 for none.
 * @param {number} set
 */
export const drawnWith = set => ({colour: set % COLOURS, hatching: Math.floor(set / COLOURS) % HATCHINGS});

const DIM = 0.16;
/** The height of a data set's name. */
const NAME = 15;

/**
 * Where a column begins: at a whole pixel, so that cells are sharp and the picture has all of the width.
 * @param {Layout} layout
 * @param {number} column
 */
export function edge({left, cell}, column) { return cell < 1.5 ? left + column * cell : Math.round(left + column * cell); }

/** Draws the tracks of a volume on a canvas. */
export class Tracks {
  /** @param {HTMLCanvasElement} canvas */
  constructor(canvas) {
    this.canvas = canvas;
    /** @type {Colours | null} */
    this.kept = null;
  }

  /**
   * The colours of the page as they are now, dark or light.
   * @returns {Colours}
   */
  colours() { return this.kept ??= readColours(); }

  /** Another light: the colours are read again. */
  forget() { this.kept = null; }

  /**
   * @param {Volume} volume
   * @param {Layout} layout
   * @param {Marks} marks
   */
  draw(volume, layout, marks) {
    const pen = this.canvas.getContext('2d');
    if (!pen) return;
    this.pen = pen;
    pen.setTransform(marks.scale, 0, 0, marks.scale, 0, 0);
    pen.clearRect(0, 0, layout.width, layout.height);
    this.#axes(volume, layout);
    this.#cells(volume, layout, marks);
    this.#labels(volume, layout, marks);
    this.#findings(volume, layout);
    this.#changed(volume, layout, marks.changed);
  }

  /**
   * @param {Volume} volume
   * @param {Layout} layout
   */
  #axes(volume, layout) {
    const pen = /** @type {CanvasRenderingContext2D} */ (this.pen), { soft } = this.colours();
    const { bands, columns, per, cell, tall, left, top, step } = layout;
    pen.font = '10px system-ui, sans-serif';
    pen.fillStyle = soft;
    const every = [1, 2, 5, 10, 20, 50, 100, 200, 500, 1000, 2000, 5000, 10000].find(it => (it / per) * cell >= 34) ?? 20000;
    for (let band = 0; band < bands; band++) {
      const first = band * columns * per, last = Math.min(first + columns * per, volume.cylinders) - 1;
      for (let cylinder = Math.ceil(first / every) * every; cylinder <= last; cylinder += every) {
        pen.fillText(String(cylinder), left + ((cylinder - first) / per) * cell, top + band * step - 5);
      }
      pen.textAlign = 'right';
      for (let head = 0; head < volume.heads; head += 5) pen.fillText(String(head), left - 6, top + band * step + head * tall + 8);
      pen.textAlign = 'left';
    }
  }

  /**
   * @param {Volume} volume
   * @param {Layout} layout
   * @param {Marks} marks
   */
  #cells(volume, layout, marks) {
    const pen = /** @type {CanvasRenderingContext2D} */ (this.pen), { columns, per, cell, tall, top, step } = layout;
    const { heads, cylinders } = volume, gap = cell >= 3 ? 1 : 0, high = tall - 1;
    const patterns = this.#patterns(marks.scale);
    for (let column = 0; column * per < cylinders; column++) {
      const x = edge(layout, column % columns), wide = Math.max(edge(layout, (column % columns) + 1) - x - gap, 0.5),
            y = top + Math.floor(column / columns) * step;
      for (let head = 0; head < heads; head++) {
        const track = shownIn(volume, column * per, per, head), owner = volume.owner[track];
        pen.fillStyle = this.#colourOf(volume, track);
        pen.globalAlpha = this.#depth(volume, track, marks.lit);
        pen.fillRect(x, y + head * tall, wide, high);
        const pattern = owner >= 0 ? patterns[drawnWith(owner).hatching] : null;
        if (pattern) {
          pen.fillStyle = pattern;
          pen.fillRect(x, y + head * tall, wide, high);
        }
      }
    }
    pen.globalAlpha = 1;
  }

  /**
   * @param {Volume} volume
   * @param {number} track
   */
  #colourOf(volume, track) {
    const { sets, soft, bare } = this.colours(), owner = volume.owner[track];
    if (owner >= 0) return sets[drawnWith(owner).colour];
    return volume.counts[track] > 1 || volume.used[track] ? soft : bare;
  }

  // How deep a track's colour is: faint where it has nothing, and then by how full it is.
  /**
   * @param {Volume} volume
   * @param {number} track
   * @param {Set<number> | null} lit
   */
  #depth(volume, track, lit) {
    const fill = Math.min(1, volume.used[track] / volume.capacity), isOwned = volume.owner[track] >= 0;
    const depth = volume.used[track] ? 0.42 + 0.58 * fill : isOwned ? 0.2 : 0.75;
    return lit && !lit.has(track) ? depth * DIM + 0.04 : depth;
  }

  // The hatchings, drawn in the colour of the sheet over a cell.
  /**
   * @param {number} scale
   * @returns {(CanvasPattern | null)[]}
   */
  #patterns(scale) {
    const { sheet } = this.colours(), pen = /** @type {CanvasRenderingContext2D} */ (this.pen);
    return Array.from({ length: HATCHINGS }, (_, kind) => {
      if (!kind) return null;
      const size = 6, tile = document.createElement('canvas');
      tile.width = tile.height = Math.round(size * scale);
      const on = tile.getContext('2d');
      if (!on) return null;
      on.scale(scale, scale);
      on.strokeStyle = on.fillStyle = sheet;
      on.lineWidth = 1.3;
      hatch(on, kind, size);
      const pattern = pen.createPattern(tile, 'repeat');
      pattern?.setTransform(new DOMMatrix().scale(1 / scale));
      return pattern;
    });
  }

  // The names of data sets, each on its largest run, where that has room for it.
  /**
   * @param {Volume} volume
   * @param {Layout} layout
   * @param {Marks} marks
   */
  #labels(volume, layout, marks) {
    const pen = /** @type {CanvasRenderingContext2D} */ (this.pen), { ink, sheet } = this.colours();
    pen.font = '600 10px system-ui, sans-serif';
    for (const set of volume.sets) {
      const place = largestRun(volume, layout, set), wanted = pen.measureText(set.name).width + 8;
      if (!place || (marks.lit && !marks.lit.has(place.track))) continue;
      const isWide = place.w >= wanted && place.h >= NAME, isTall = !isWide && place.h >= wanted && place.w >= NAME;
      if (!isWide && !isTall) continue;
      pen.save();
      pen.translate(place.x + place.w / 2, place.y + place.h / 2);
      if (isTall) pen.rotate(-Math.PI / 2);
      pen.globalAlpha = 0.88;
      pen.fillStyle = sheet;
      pen.beginPath();
      rounded(pen, { x: -wanted / 2, y: -NAME / 2, w: wanted, h: NAME }, 3);
      pen.fill();
      pen.globalAlpha = 1;
      pen.fillStyle = ink;
      pen.textAlign = 'center';
      pen.fillText(set.name, 0, 3.5);
      pen.restore();
    }
  }

  // A finding: a cross over its track within a frame, in red where it is an error, and a frame alone for a warning.
  /**
   * @param {Volume} volume
   * @param {Layout} layout
   */
  #findings(volume, layout) {
    const pen = /** @type {CanvasRenderingContext2D} */ (this.pen), { alarm, caution, sheet } = this.colours();
    for (const it of volume.findings) {
      if (it.track < 0 || it.severity === 'note') continue;
      const { x, y, w, h } = placeIn(layout, volume.heads, it.track), middle = [x + w / 2, y + h / 2],
                         r = Math.min(7, Math.max(w, h) / 2 + 2.5);
      pen.fillStyle = it.severity === 'error' ? alarm : sheet;
      pen.strokeStyle = it.severity === 'error' ? sheet : caution;
      pen.lineWidth = 1.5;
      pen.beginPath();
      rounded(pen, { x: middle[0] - r, y: middle[1] - r, w: 2 * r, h: 2 * r }, 2);
      pen.fill();
      pen.stroke();
      if (it.severity !== 'error') continue;
      const d = r - 3;
      pen.beginPath();
      pen.moveTo(middle[0] - d, middle[1] - d);
      pen.lineTo(middle[0] + d, middle[1] + d);
      pen.moveTo(middle[0] + d, middle[1] - d);
      pen.lineTo(middle[0] - d, middle[1] + d);
      pen.stroke();
    }
  }

  // A track that was changed, or differs: a frame in blue that stands out beyond it.
  /**
   * @param {Volume} volume
   * @param {Layout} layout
   * @param {Set<number>} changed
   */
  #changed(volume, layout, changed) {
    const pen = /** @type {CanvasRenderingContext2D} */ (this.pen), { blue, sheet } = this.colours();
    const grow = changed.size > 400 ? 0.5 : 2;
    for (const track of changed) {
      const { x, y, w, h } = placeIn(layout, volume.heads, track);
      pen.strokeStyle = sheet;
      pen.lineWidth = 3.5;
      if (grow > 1) pen.strokeRect(x - grow, y - grow, w + 2 * grow, h + 2 * grow);
      pen.strokeStyle = blue;
      pen.lineWidth = 2;
      pen.strokeRect(x - grow, y - grow, w + 2 * grow, h + 2 * grow);
    }
  }
}

/**
 * A rectangle with round corners.
 * @param {CanvasRenderingContext2D} pen
 * @param {{x: number, y: number, w: number, h: number}} box
 * @param {number} r
 */
function rounded(pen, { x, y, w, h }, r) {
  pen.moveTo(x + r, y);
  pen.arcTo(x + w, y, x + w, y + h, r);
  pen.arcTo(x + w, y + h, x, y + h, r);
  pen.arcTo(x, y + h, x, y, r);
  pen.arcTo(x, y, x + w, y, r);
  pen.closePath();
}

// The track that a cell shows: of several cylinders the fullest, since one with a finding is marked in any case.
/**
 * @param {Volume} volume
 * @param {number} first
 * @param {number} per
 * @param {number} head
 */
function shownIn(volume, first, per, head) {
  let shown = first * volume.heads + head;
  for (let cylinder = first + 1; cylinder < Math.min(first + per, volume.cylinders); cylinder++) {
    const track = cylinder * volume.heads + head;
    if (volume.used[track] > volume.used[shown]) shown = track;
  }
  return shown;
}

/**
 * @param {Layout} layout
 * @param {number} heads
 * @param {number} track
 */
function placeIn(layout, heads, track) {
  const { columns, per, tall, top, step } = layout, column = Math.floor(Math.floor(track / heads) / per),
                                        x = edge(layout, column % columns);
  return {
    x,
    y: top + Math.floor(column / columns) * step + (track % heads) * tall,
    w: Math.max(edge(layout, (column % columns) + 1) - x - 1, 1),
    h: tall - 1
  };
}

/**
 * The largest of a data set's runs that lies in one band, as it stands on the canvas: over all heads of its cylinders, or over those that it
 * has where it shares them.
 * @param {Volume} volume
 * @param {Layout} layout
 * @param {DataSet} set
 */
export function largestRun(volume, layout, set) {
  const { columns, per, cell, tall, left, top, step } = layout;
  let best = null;
  for (const [at, [first, head, last, lastHead]] of set.extents.entries()) {
    const [upper, lower] = set.extentTypes[at] === SHARED ? [head, Math.min(lastHead, volume.heads - 1)] : [0, volume.heads - 1];
    const y = top + upper * tall, h = (lower - upper + 1) * tall, track = first * volume.heads + head;
    for (let column = Math.floor(first / per); column <= Math.floor(last / per);) {
      const band = Math.floor(column / columns), end = Math.min(Math.floor(last / per), (band + 1) * columns - 1);
      const w = (end - column + 1) * cell;
      if (!best || w > best.w) best = { x: left + (column % columns) * cell, y: y + band * step, w, h, track };
      column = end + 1;
    }
  }
  return best;
}

/**
 * @param {CanvasRenderingContext2D} on
 * @param {number} kind
 * @param {number} size
 */
function hatch(on, kind, size) {
  const line = (/** @type {number} */ a, /** @type {number} */ b, /** @type {number} */ c, /** @type {number} */ d) => {
    on.moveTo(a, b);
    on.lineTo(c, d);
  };
  on.beginPath();
  if (kind === 1)
    for (const by of [-size, 0, size]) line(by - 1, size + 1, by + size + 1, -1);
  if (kind === 2)
    for (const by of [-size, 0, size]) line(by - 1, -1, by + size + 1, size + 1);
  if (kind === 3) {
    line(1, -1, 1, size + 1);
    line(4, -1, 4, size + 1);
  }
  if (kind === 4) {
    on.rect(0, 0, 2, 2);
    on.rect(3, 3, 2, 2);
    on.fill();
    return;
  }
  on.stroke();
}

/**
 * Reads the page's colours, resolved for the light that is on.
 * @returns {Colours}
 */
function readColours() {
  const probe = document.createElement('i');
  document.body.append(probe);
  const read = (/** @type {string} */ name) => {
    probe.style.color = `var(--${name})`;
    return getComputedStyle(probe).color;
  };
  const it = {
    ink: read('ink'),
    sheet: read('sheet'),
    soft: read('other'),
    bare: read('bare'),
    alarm: read('alarm'),
    caution: read('caution'),
    blue: read('blue'),
    sets: Array.from({ length: COLOURS }, (_, i) => read(`set-${i}`))
  };
  probe.remove();
  return it;
}

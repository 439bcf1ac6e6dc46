// @ts-check
// The volume as a picture: cylinders from left to right, heads from top to bottom, each track a cell. Where a row of cylinders would be
// narrower than can be seen, the picture has several bands, one under the other; where even those have no room, a cell stands for several
// cylinders, and shows the gravest of what is on them. One canvas has the tracks, a second one above it what moves: choice, pointer, arms.

import { Tracks, edge } from './picture_tracks.mjs';

/** @typedef {import('./shapes.mjs').Volume} Volume */
/** @typedef {{cylinder: number, head: number, moves: boolean, name: string}} Arm */
/**
 * @typedef {object} Layout
 * @property {number} bands
 * @property {number} columns of a band
 * @property {number} per cylinders that a column stands for
 * @property {number} cell the width of a column
 * @property {number} tall the height of a head
 * @property {number} left
 * @property {number} top
 * @property {number} step from a band to the next
 * @property {number} width
 * @property {number} height
 */

const AXIS = 15;
const LEFT = 26;
const GAP = 8;

/**
 * How the picture is laid out in a width: how many bands, how many columns in each, how wide and tall a cell is.
 * @param {number} width
 * @param {number} cylinders
 * @param {number} heads
 * @returns {Layout}
 */
export function layOut(width, cylinders, heads) {
  const room = Math.max(60, width - LEFT - 2);
  const wanted = 3.5;
  const bands = Math.min(4, Math.max(1, Math.ceil((cylinders * wanted) / room)), Math.max(1, cylinders));
  let columns = Math.ceil(cylinders / bands);
  const per = Math.max(1, Math.ceil(columns / room));
  columns = Math.ceil(columns / per);
  const cell = Math.min(44, room / columns);
  const tall = (heads === 20 ? [9, 7, 6, 5] : [13, 10, 8, 7])[bands - 1];
  const step = AXIS + heads * tall + GAP;
  return { bands, columns, per, cell, tall, left: LEFT, top: AXIS, step, width, height: bands * step - GAP + 3 };
}

/** The picture, its pointer and its keys. */
export class Picture {
  /**
   * @param {HTMLElement} root where its two canvases stand
   * @param {{told: (track: number | null) => void, chosen: (track: number) => void, opened: (track: number) => void}} hooks
   */
  constructor(root, hooks) {
    this.root = root;
    this.hooks = hooks;
    const [under, over] = /** @type {HTMLCanvasElement[]} */ ([...root.querySelectorAll('canvas')]);
    this.under = under;
    this.over = over;
    /** @type {Volume | null} */
    this.volume = null;
    /** @type {Layout} */
    this.layout = layOut(800, 1, 10);
    /** @type {Arm[]} */
    this.arms = [];
    /** @type {Set<number>} */
    this.changed = new Set();
    /** @type {Set<number> | null} */
    this.lit = null;
    /** @type {number | null} */
    this.pointed = null;
    this.chosen = 0;
    this.tracks = new Tracks(this.under);
    this.#listen();
  }

  #listen() {
    new ResizeObserver(() => this.draw()).observe(this.root);
    this.over.addEventListener('pointermove', event => this.#point(this.trackAt(event.offsetX, event.offsetY)));
    this.over.addEventListener('pointerleave', () => this.#point(null));
    this.over.addEventListener('click', event => {
      const track = this.trackAt(event.offsetX, event.offsetY);
      if (track !== null) this.hooks.opened(track);
    });
    this.over.addEventListener('keydown', event => this.#press(event));
  }

  /** @param {number | null} track */
  #point(track) {
    if (track === this.pointed) return;
    this.pointed = track;
    this.hooks.told(track);
    this.drawOver();
  }

  /** @param {KeyboardEvent} event */
  #press(event) {
    if (!this.volume || event.altKey || event.ctrlKey || event.metaKey) return;
    const to = this.#reached(event.key);
    if (event.key === 'Enter' || event.key === ' ') this.hooks.opened(this.chosen);
    else if (to === null) return;
    else this.hooks.chosen(Math.min(Math.max(to, 0), this.volume.cylinders * this.volume.heads - 1));
    event.preventDefault();
  }

  /**
   * The track that a key leads to: arrows a head or a cylinder on, Page ten cylinders, Home and End, N and P a finding on or back.
   * @param {string} key
   * @returns {number | null}
   */
  #reached(key) {
    const { cylinders, heads, findings } = /** @type {Volume} */ (this.volume);
    const at = this.chosen, head = at % heads;
    const places = findings.filter(it => it.track >= 0 && it.severity !== 'note').map(it => it.track).sort((a, b) => a - b);
    switch (key) {
      case 'ArrowRight': return at + heads < cylinders * heads ? at + heads : at;
      case 'ArrowLeft': return at - heads >= 0 ? at - heads : at;
      case 'ArrowDown': return head + 1 < heads ? at + 1 : at;
      case 'ArrowUp': return head > 0 ? at - 1 : at;
      case 'PageDown': return Math.min(at + 10 * heads, (cylinders - 1) * heads + head);
      case 'PageUp': return Math.max(at - 10 * heads, head);
      case 'Home': return 0;
      case 'End': return cylinders * heads - 1;
      case 'n': return places.find(it => it > at) ?? places[0] ?? at;
      case 'p': return places.filter(it => it < at).at(-1) ?? places.at(-1) ?? at;
      default: return null;
    }
  }

  /**
   * @param {Volume} volume
   * @param {boolean} isSame whether it is the volume that was shown, changed
   */
  show(volume, isSame) {
    this.volume = volume;
    if (!isSame) this.lit = null;
    this.pointed = null;
    this.chosen = Math.min(this.chosen, volume.cylinders * volume.heads - 1);
    this.draw();
  }

  /** @param {Set<number> | null} tracks the tracks that stand out; null: all of them do */
  light(tracks) {
    this.lit = tracks;
    this.draw();
  }

  /** @param {Set<number>} tracks the tracks that a deck has changed, or that differ from another pack's */
  mark(tracks) {
    this.changed = tracks;
    this.draw();
  }

  /** @param {Arm[]} arms */
  stand(arms) {
    this.arms = arms;
    this.drawOver();
  }

  /** @param {number} track */
  choose(track) {
    this.chosen = track;
    this.drawOver();
  }

  /** Draws all of it, in the width that there is. */
  draw() {
    if (!this.volume || !this.root.clientWidth) return;
    const { cylinders, heads } = this.volume;
    this.layout = layOut(this.root.clientWidth, cylinders, heads);
    const scale = globalThis.devicePixelRatio || 1;
    for (const canvas of [this.under, this.over]) {
      canvas.style.height = `${this.layout.height}px`;
      canvas.width = Math.round(this.layout.width * scale);
      canvas.height = Math.round(this.layout.height * scale);
    }
    this.root.style.height = `${this.layout.height}px`;
    this.tracks.draw(this.volume, this.layout, { lit: this.lit, changed: this.changed, scale });
    this.drawOver();
  }

  /** Draws what moves: the chosen track, the one under the pointer, and the arms. */
  drawOver() {
    const pen = this.over.getContext('2d');
    if (!pen || !this.volume) return;
    const scale = globalThis.devicePixelRatio || 1, { ink, sheet } = this.tracks.colours();
    pen.setTransform(scale, 0, 0, scale, 0, 0);
    pen.clearRect(0, 0, this.layout.width, this.layout.height);
    if (this.pointed !== null) this.#frame(pen, this.pointed, ink, 1);
    this.#frame(pen, this.chosen, sheet, 4);
    this.#frame(pen, this.chosen, ink, 2);
    for (const arm of this.arms) this.#arm(pen, arm, ink, sheet);
  }

  /**
   * @param {CanvasRenderingContext2D} pen
   * @param {number} track
   * @param {string} colour
   * @param {number} width
   */
  #frame(pen, track, colour, width) {
    const { x, y, w, h } = this.placeOf(track);
    pen.strokeStyle = colour;
    pen.lineWidth = width;
    pen.strokeRect(x - 1, y - 1, Math.max(w, 2) + 1, h + 1);
  }

  // An arm: a line over the heads of its cylinder with a disc at its head, which is hollow while the arm moves.
  /**
   * @param {CanvasRenderingContext2D} pen
   * @param {Arm} arm
   * @param {string} ink
   * @param {string} sheet
   */
  #arm(pen, arm, ink, sheet) {
    const { heads } = /** @type {Volume} */ (this.volume), { x, y, w, h, top } = this.placeOf(arm.cylinder * heads + arm.head);
    const middle = x + w / 2;
    for (const [colour, width] of /** @type {[string, number][]} */ ([[sheet, 4], [ink, 1.5]])) {
      pen.strokeStyle = colour;
      pen.lineWidth = width;
      pen.beginPath();
      pen.moveTo(middle, top - 3);
      pen.lineTo(middle, top + heads * this.layout.tall + 2);
      pen.stroke();
    }
    pen.beginPath();
    pen.arc(middle, y + h / 2, 4.5, 0, 2 * Math.PI);
    pen.fillStyle = arm.moves ? sheet : ink;
    pen.fill();
    pen.strokeStyle = arm.moves ? ink : sheet;
    pen.stroke();
  }

  /**
   * Where a track stands on the canvas.
   * @param {number} track
   */
  placeOf(track) {
    const { heads } = /** @type {Volume} */ (this.volume), { columns, per, cell, tall, top, step } = this.layout;
    const column = Math.floor(Math.floor(track / heads) / per), band = Math.floor(column / columns);
    const x = edge(this.layout, column % columns), w = edge(this.layout, (column % columns) + 1) - x;
    return { x, y: top + band * step + (track % heads) * tall, w: w - (cell >= 3 ? 1 : 0), h: tall - 1, top: top + band * step };
  }

  /**
   * The track at a place of the canvas, or null.
   * @param {number} x
   * @param {number} y
   * @returns {number | null}
   */
  trackAt(x, y) {
    if (!this.volume) return null;
    const { cylinders, heads } = this.volume, { bands, columns, per, cell, tall, left, top, step } = this.layout;
    const band = Math.floor((y - top) / step), head = Math.floor((y - top - band * step) / tall), column = Math.floor((x - left) / cell);
    if (band < 0 || band >= bands || head < 0 || head >= heads || column < 0 || column >= columns) return null;
    const cylinder = (band * columns + column) * per;
    return cylinder < cylinders ? cylinder * heads + head : null;
  }
}

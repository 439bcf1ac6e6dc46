// @ts-check
// One track of a disc, drawn: its records around the spindle, and the arm beside it. The disc turns, so that a record comes under the head.

import { COUNT_BYTES } from './records.mjs';

/** @typedef {import('./shapes.mjs').RecordShape} RecordShape */

const MIDDLE = 150, OUTER = 140, OUTERMOST = 128, INNERMOST = 56, WIDTH = 26, RIGHT = 372;
/** The part of the circle before record 0: the index. */
const INDEX = 14;
/** The part of the circle, of 1, in which a record has room for its name, and not for its number alone. */
const LONG = 0.1;

/**
 * An element of a drawing.
 * @param {string} name
 * @param {Record<string, string | number>} given
 * @param {...(Node | string)} inside
 */
function shape(name, given, ...inside) {
  const it = document.createElementNS('http://www.w3.org/2000/svg', name);
  for (const [key, value] of Object.entries(given)) it.setAttribute(key, String(value));
  it.append(...inside);
  return it;
}

/** The drawing. */
export class Disc {
  /** @param {HTMLElement} root an `svg` */
  constructor(root) {
    this.root = root;
    this.turned = 0;
    /** @type {number[]} the angle of the middle of each record */
    this.middles = [];
    /** @type {Element[]} */
    this.parts = [];
    /** @type {Element[]} */
    this.names = [];
    this.track = shape('g', { class: 'track' });
    this.platter = /** @type {SVGElement} */ (shape('g', { class: 'platter' }, shape('circle', { class: 'disk', cx: MIDDLE, cy: MIDDLE, r: OUTER }),
      ...[124, 108, 92, 76, 60].map(r => shape('circle', { class: 'groove', cx: MIDDLE, cy: MIDDLE, r })), this.track,
      shape('circle', { class: 'spindle', cx: MIDDLE, cy: MIDDLE, r: 30 }), shape('circle', { class: 'bolt', cx: MIDDLE, cy: MIDDLE - 18, r: 4 })));
    this.arm = /** @type {SVGElement} */ (shape('g', { class: 'arm' }, shape('rect', { x: 12, y: MIDDLE - 5, width: 260, height: 10, rx: 3 }),
      shape('path', { d: `M14 ${MIDDLE - 9} H-6 L-13 ${MIDDLE} L-6 ${MIDDLE + 9} H14 Z` })));
    this.said = this.arm.appendChild(shape('text', { x: 58, y: MIDDLE - 13 }));
    root.replaceChildren(this.platter, this.arm);
    root.setAttribute('viewBox', `0 0 ${RIGHT} 300`);
  }

  /**
   * Draws a track's records, each as long as its bytes.
   * @param {RecordShape[]} records
   * @param {number} cylinder
   * @param {number} cylinders
   */
  draw(records, cylinder, cylinders) {
    const lengths = records.map(it => COUNT_BYTES + it.keyLength + it.dataLength + 160), sum = lengths.reduce((all, it) => all + it, 0);
    const r = this.#radius(cylinder, cylinders), around = 2 * Math.PI * r;
    let angle = INDEX;
    this.middles = [];
    this.parts = records.map((_, number) => {
      const wide = (360 - INDEX) * lengths[number] / sum, long = around * (wide - 2.4) / 360;
      const arc = shape('circle', {
        class: 'record', cx: MIDDLE, cy: MIDDLE, r, 'stroke-width': WIDTH, 'stroke-dasharray': `${long} ${around}`,
        transform: `rotate(${angle} ${MIDDLE} ${MIDDLE})`
      });
      this.middles.push(angle + wide / 2);
      angle += wide;
      return arc;
    });
    this.names = records.map((_, number) => shape('text', {
      x: MIDDLE + r, y: MIDDLE, 'text-anchor': 'middle', 'dominant-baseline': 'central',
      transform: `rotate(${this.middles[number]} ${MIDDLE} ${MIDDLE}) rotate(90 ${MIDDLE + r} ${MIDDLE})`
    }, lengths[number] / sum > LONG ? `record ${number}` : `${number}`));
    const index = shape('path', { class: 'index', d: `M${MIDDLE + r - WIDTH / 2} ${MIDDLE} H${MIDDLE + r + WIDTH / 2}`,
      transform: `rotate(${INDEX / 2} ${MIDDLE} ${MIDDLE})` });
    this.track.replaceChildren(...this.parts, ...this.names, index);
  }

  /**
   * @param {number} cylinder
   * @param {number} cylinders
   */
  #radius(cylinder, cylinders) { return OUTERMOST - (OUTERMOST - INNERMOST) * cylinder / Math.max(1, cylinders - 1); }

  /**
   * The arm goes to a cylinder; its track is seen once it is there.
   * @param {number} cylinder
   * @param {number} cylinders
   * @param {boolean} isThere
   */
  seek(cylinder, cylinders, isThere) {
    this.arm.style.transform = `translateX(${MIDDLE + this.#radius(cylinder, cylinders)}px)`;
    this.track.classList.toggle('there', isThere);
  }

  /**
   * The disc turns on until a record is under the head.
   * @param {number} number
   */
  turn(number) {
    const to = -this.middles[number];
    this.turned = to + 360 * Math.floor((this.turned - to) / 360);
    this.platter.style.transform = `rotate(${this.turned}deg)`;
  }

  /**
   * Lights a record, or none, with a word at the head.
   * @param {number | null} number
   * @param {string} kind
   * @param {string} said
   */
  light(number, kind, said) {
    this.said.textContent = said;
    this.parts.forEach((it, at) => it.setAttribute('class', `record${at === number ? ` ${kind}` : ''}`));
    // the head is over the name of a record that is lit
    this.names.forEach((it, at) => it.setAttribute('class', at === number ? 'under' : ''));
  }
}

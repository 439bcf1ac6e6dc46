// @ts-check
// The moments of a deck that was run: before each event, and behind each unit of one that has units. No view stands in here.

/** @typedef {{event: number, unit: number}} Place */
/**
 * A line of the trace, the moment at which it is said, and whether a word ends with it.
 * @typedef {{text: string, event: number, unit: number, isWord: boolean}} TraceLine
 */

/** All moments of a run, in a row. */
export class Timeline {
  /**
   * @param {number[]} units how many units each event did
   * @param {TraceLine[]} lines
   */
  constructor(units, lines) {
    this.units = units;
    this.lines = lines;
    /** @type {number[]} the number of the first moment of each event, and of the end */
    this.starts = [0];
    for (const it of units) this.starts.push(/** @type {number} */ (this.starts.at(-1)) + Math.max(1, it));
    this.words = [...new Set(lines.filter(it => it.isWord).map(it => this.numberOf(it)))].sort((a, b) => a - b);
  }

  get end() { return /** @type {number} */ (this.starts.at(-1)); }

  /**
   * Units that are all done are the moment before the next event.
   * @param {Place} place
   */
  numberOf({ event, unit }) { return event >= this.units.length ? this.end : Math.min(this.starts[event] + unit, this.starts[event + 1]); }

  /**
   * @param {number} number
   * @returns {Place}
   */
  placeOf(number) {
    if (number >= this.end) return { event: this.units.length, unit: 0 };
    let [low, high] = [0, this.units.length];
    while (high - low > 1) {
      const middle = (low + high) >> 1;
      if (this.starts[middle] <= number) low = middle;
      else high = middle;
    }
    return { event: low, unit: Math.max(0, number) - this.starts[low] };
  }

  /**
   * The moment that a step leads to.
   * @param {number} number
   * @param {'event' | 'word' | 'unit'} by
   * @param {1 | -1} way
   */
  step(number, by, way) {
    if (by === 'unit') return Math.min(Math.max(number + way, 0), this.end);
    const stops = by === 'event' ? this.starts : this.words;
    const to = way > 0 ? stops.find(it => it > number) : stops.filter(it => it < number).at(-1);
    return to ?? (way > 0 ? this.end : 0);
  }

  /**
   * How many lines of the trace are said at a moment.
   * @param {number} number
   */
  said(number) {
    const at = this.lines.findIndex(it => this.numberOf(it) > number);
    return at < 0 ? this.lines.length : at;
  }
}

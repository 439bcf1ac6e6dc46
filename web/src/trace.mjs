// @ts-check
// The trace beside the machine: each line leads to its moment; and the steps, by event, by word and by unit, forwards and back.

import { amount, button, counted, find, make } from './dom.mjs';

/** @typedef {import('./timeline.mjs').Timeline} Timeline */

const WINDOW = 1500;

/** The pane of the trace. */
export class Trace {
  /** @param {{go: (moment: number) => void}} hooks */
  constructor(hooks) {
    this.hooks = hooks;
    this.root = find('trace');
    /** @type {Timeline | null} */
    this.time = null;
    this.now = 0;
    this.first = 0;
    this.timeField = /** @type {HTMLInputElement} */ (
      make('input', { id: 'time', type: 'range', min: 0, max: 0, value: 0, 'aria-label': 'The moment', disabled: true }));
    this.moment = make('span', { id: 'moment', class: 'soft', role: 'status' });
    this.timeField.addEventListener('input', () => hooks.go(Number(this.timeField.value)));
    find('steps').replaceChildren(make('h2', { id: 'trace-title' }, 'Trace'),
      ...[/** @type {const} */ ('event'), /** @type {const} */ ('word'), /** @type {const} */ ('unit')].map(by => this.#group(by)),
      this.timeField, this.moment);
    this.root.addEventListener('keydown', event => this.#press(event));
    this.root.addEventListener('click', event => {
      const line = /** @type {HTMLElement} */ (event.target).closest('.trace-line');
      if (line instanceof HTMLElement && this.time) hooks.go(this.time.numberOf(this.time.lines[Number(line.dataset.line)]));
    });
  }

  /** @param {'event' | 'word' | 'unit'} by */
  #group(by) {
    const step = (/** @type {1 | -1} */ way) => () => this.step(by, way);
    return make('span', { class: 'group' },
      button('◀', step(-1), { 'data-step': `${by}-back`, 'aria-label': `One ${by} back`, disabled: true }),
      make('span', { class: 'name', 'aria-hidden': 'true' }, by),
      button('▶', step(1), { 'data-step': `${by}-on`, 'aria-label': `One ${by} on`, disabled: true }));
  }

  /**
   * @param {'event' | 'word' | 'unit'} by
   * @param {1 | -1} way
   */
  step(by, way) {
    if (this.time) this.hooks.go(this.time.step(this.now, by, way));
  }

  // Left and right a unit, up and down a word, Page Up and Page Down an event, Home and End.
  /** @param {KeyboardEvent} event */
  #press(event) {
    if (!this.time || event.altKey || event.ctrlKey || event.metaKey) return;
    const steps = /** @type {Record<string, ['event' | 'word' | 'unit', 1 | -1]>} */ ({
      ArrowRight: ['unit', 1],
      ArrowLeft: ['unit', -1],
      ArrowDown: ['word', 1],
      ArrowUp: ['word', -1],
      PageDown: ['event', 1],
      PageUp: ['event', -1]
    });
    if (event.key === 'Home') this.hooks.go(0);
    else if (event.key === 'End') this.hooks.go(this.time.end);
    else if (steps[event.key]) this.step(...steps[event.key]);
    else return;
    event.preventDefault();
  }

  clear() {
    this.time = null;
    this.root.replaceChildren(make('p', { class: 'soft', style: 'padding: 2px 12px; font-family: var(--sans); font-size: 13px' },
      'A trace tells what each channel command word did, and why a program failed.'));
    this.moment.textContent = '';
    this.#enable();
  }

  /**
   * A deck that was run.
   * @param {Timeline} time
   */
  take(time) {
    this.time = time;
    this.first = -1;
    this.timeField.max = String(time.end);
  }

  /**
   * A deck whose trace is not to be had, and why.
   * @param {string} text
   */
  tell(text) {
    this.root.replaceChildren(
      make('p', { class: 'bad', style: 'padding: 2px 12px; font-family: var(--sans); font-size: 13px; white-space: pre-wrap' }, text));
  }

  /**
   * Shows a moment.
   * @param {number} moment
   */
  show(moment) {
    const time = /** @type {Timeline} */ (this.time), { event, unit } = time.placeOf(moment);
    this.now = moment;
    this.timeField.value = String(moment);
    this.timeField.setAttribute('aria-valuetext', this.#told(event, unit));
    this.moment.textContent = this.#told(event, unit);
    this.#lines(time, time.said(moment));
    this.#enable();
  }

  /**
   * @param {number} event
   * @param {number} unit
   */
  #told(event, unit) {
    const { units } = /** @type {Timeline} */ (this.time);
    if (event >= units.length) return `all ${amount(units.length, 'event')} done`;
    return units[event] ? `event ${event + 1}, ${counted(unit)} of ${amount(units[event], 'unit')}` :
                          `event ${event + 1} of ${units.length}`;
  }

  /**
   * @param {Timeline} time
   * @param {number} said how many lines are said
   */
  #lines(time, said) {
    const first = Math.max(0, Math.min(said - WINDOW, time.lines.length - 2 * WINDOW));
    if (this.first < 0 || said < this.first || said > this.first + 2 * WINDOW || (Math.abs(first - this.first) > WINDOW / 2))
      this.#fill(time, this.first = first);
    for (const it of this.root.querySelectorAll('.trace-line')) {
      const line = Number(/** @type {HTMLElement} */ (it).dataset.line), isNow = line === said - 1;
      it.classList.toggle('later', line >= said);
      it.classList.toggle('now', isNow);
      it.setAttribute('aria-selected', String(isNow));
      if (isNow) {
        it.scrollIntoView({ block: 'nearest' });
        this.root.setAttribute('aria-activedescendant', it.id);
      }
    }
    if (!said) this.root.scrollTop = 0;
  }

  /**
   * @param {Timeline} time
   * @param {number} first
   */
  #fill(time, first) {
    const last = Math.min(time.lines.length, first + 2 * WINDOW);
    const lines = time.lines.slice(first, last)
                    .map(({ text }, at) => make('div', {
                      class: `trace-line${/^\S/.test(text) ? ' of-event' : ''}`,
                      'data-line': first + at,
                      id: `trace-${first + at}`,
                      role: 'option',
                      'aria-selected': 'false'
                    },
                           text));
    const gap = (/** @type {number} */ count, /** @type {string} */ where) =>
      (count ? [make('p', { class: 'soft', style: 'padding: 0 12px' }, `${amount(count, 'line')} ${where}`)] : []);
    this.root.replaceChildren(...gap(first, 'above'), ...lines, ...gap(time.lines.length - last, 'below'));
  }

  #enable() {
    const { time, now } = this;
    this.timeField.disabled = !time;
    for (const it of /** @type {NodeListOf<HTMLButtonElement>} */ (find('steps').querySelectorAll('[data-step]'))) {
      it.disabled = !time || (it.dataset.step?.endsWith('-back') ? now <= 0 : now >= time.end);
    }
  }
}

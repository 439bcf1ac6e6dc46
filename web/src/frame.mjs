// @ts-check
// What is around the views: tabs, the name of the volume, the message below them, the fold of the picture, and the light.

import { amount, counted, find, rove } from './dom.mjs';

const TABS = ['first', 'volume', 'deck', 'compare'];

/** The tabs, one of which is shown, and what the page tells. */
export class Frame {
  tab = 'first';

  /**
   * @param {{shown: (tab: string) => void, redraw: () => void, folded: () => void, closed: () => void}} hooks `redraw`: the light has changed;
   *   `folded`: the picture has another height; `closed`: the visitor closed a message
   */
  constructor(hooks) {
    this.hooks = hooks;
    for (const tab of TABS) find(`tab-${tab}`).addEventListener('click', () => this.show(tab));
    rove(/** @type {HTMLElement} */ (document.querySelector('header nav')), '[role=tab]', it => this.show(it.id.slice(4)));
    find('fold').addEventListener('click', () => this.#fold(!find('map').classList.contains('folded')));
    find('theme').addEventListener('click', () => this.#light());
    find('notice-close').addEventListener('click', () => {
      this.tell('');
      hooks.closed();
    });
    matchMedia('(prefers-color-scheme: dark)').addEventListener('change', () => hooks.redraw());
  }

  /** @param {string} tab */
  show(tab) {
    this.tab = tab;
    this.#fold(tab !== 'volume');
    this.hooks.shown(tab);
    for (const it of TABS) {
      find(it).hidden = it !== tab;
      find(`tab-${it}`).setAttribute('aria-selected', String(it === tab));
      find(`tab-${it}`).tabIndex = it === tab ? 0 : -1;
    }
  }

  /**
   * Tells what went wrong, or that something was done; an empty text closes the message.
   * @param {string} text
   * @param {boolean} [isGood]
   */
  tell(text, isGood = false) {
    find('notice-text').textContent = text;
    find('notice').classList.toggle('good', isGood);
    find('notice').hidden = !text;
    find('notice-part').hidden = true;
  }

  /**
   * Tells what goes on, and how far it is.
   * @param {string} text empty once it is over
   * @param {number} done
   * @param {number | null} whole the same of all, where it is known
   */
  progress(text, done, whole) {
    const part = /** @type {HTMLProgressElement} */ (find('notice-part'));
    // the same text again would be read out again
    if (part.hidden || find('notice-text').textContent !== text) this.tell(text, true);
    part.hidden = !text;
    if (whole) {
      part.max = whole;
      part.value = Math.min(done, whole);
    } else part.removeAttribute('value');
  }

  /**
   * Names the volume that is shown, and counts what is wrong with it.
   * @param {import('./shapes.mjs').Volume} volume
   */
  name({ name, model, cylinders, heads, bytes, findings, sums: { warnings } }) {
    const wrong = find('wrong'), errors = findings.filter(it => it.severity === 'error').length;
    find('name').textContent = name;
    find('facts').textContent = `${model}, ${amount(cylinders, 'cylinder')} × ${heads} heads, ${counted(bytes)} bytes`;
    wrong.hidden = !errors && !warnings;
    wrong.textContent = [errors && amount(errors, 'error'), warnings && amount(warnings, 'warning')].filter(Boolean).join(', ');
  }

  /** What had the focus may be gone with the view that it was in: the picture takes it. */
  focus() {
    const has = /** @type {any} */ (document.activeElement), picture = /** @type {any} */ (find('pointer'));
    if (!has || has === document.body || !has.checkVisibility()) (picture.checkVisibility() ? picture : find('main')).focus({ preventScroll: true });
  }

  /** @param {boolean} isFolded whether a narrow screen does without the picture; a wide one always has it */
  #fold(isFolded) {
    find('map').classList.toggle('folded', isFolded);
    find('fold').setAttribute('aria-expanded', String(!isFolded));
    this.hooks.folded();
  }

  #light() {
    const root = document.documentElement,
          isDark = root.dataset.theme ? root.dataset.theme === 'dark' : matchMedia('(prefers-color-scheme: dark)').matches;
    root.dataset.theme = isDark ? 'light' : 'dark';
    this.hooks.redraw();
  }
}

// @ts-check
// The deck: written with help, as a deck or in words, and shown with its answers once it was run. What is wrong in a line, the forms of events,
// what a channel command word means, and a text in the other language are the words of `dasd`.

import { button, find, linesOf, make } from './dom.mjs';
import { LETTERS } from './ebcdic.mjs';
import { FaultMark } from './fault_mark.mjs';
import { FIRST_TEXT } from './first_program.mjs';
import { WordBuilder } from './word_builder.mjs';

/** @typedef {{number: number, text: string, event: number | null}} DeckLine a line of a deck, and which event it is, if any */
/** @typedef {'deck' | 'words'} Language */
/** @typedef {import('./words.mjs').Turned} Turned */
/**
 * @typedef {{explain: (kind: string, digits: string) => Promise<string>, fault: (line: string) => Promise<string>, forms: () => Promise<string>,
 *   assemble: (text: string) => Promise<Turned>, disassemble: (deck: string) => Promise<Turned>, go: (event: number) => void,
 *   run: () => void, typed: () => void, turned: () => void}} Hooks `typed`: the visitor has changed the text; `turned`: its language */

const PATIENCE = 180;
const MOST_WORDS = 12;
/** What a field is to those who hear it. */
const NAMES = { deck: 'The deck, an event a line', words: 'The deck in words, a statement a line' };

/**
 * The lines of a deck, with the events that stand in them.
 * @param {string} text
 * @param {{number: number}[]} events each with its line
 * @returns {DeckLine[]}
 */
export function deckLines(text, events) {
  const at = new Map(events.map((it, event) => [it.number, event]));
  return linesOf(text).map((line, number) => ({ number, text: line, event: at.get(number) ?? null }));
}

/**
 * Whether a line is to be looked at: an empty one and one that begins with an asterisk are no events.
 * @param {string} line
 */
const isEvent = line => line.trim() !== '' && !line.trimStart().startsWith('*');

/**
 * A text as a field can show it, line by line: a carriage return that ends no line is seen as a sign.
 * @param {string} text
 */
const shownOf = text => text.replace(/\r(?!\n|$)/g, '␍').replace(/\r/g, '');

/** The pane of the deck. */
export class DeckEditor {
  /** @param {Hooks} hooks */
  constructor(hooks) {
    this.hooks = hooks;
    this.gutter = make('div', { class: 'gutter mono', 'aria-hidden': 'true' });
    this.field = /** @type {HTMLTextAreaElement} */ (make('textarea', {
      id: 'text',
      spellcheck: 'false',
      autocapitalize: 'off',
      autocomplete: 'off',
      'aria-describedby': 'deck-help',
      wrap: 'off'
    }));
    this.help = make('div', { class: 'help', id: 'deck-help', role: 'status' });
    this.events = find('events');
    /** @type {Map<number, string>} what is wrong, by the numbers of lines */
    this.faults = new Map();
    this.asked = 0;
    /** The text that was put there, and what the field made of it. */
    this.put = { text: '', shown: '' };
    /** @type {Language} */
    this.language = 'deck';
    /** @type {{from: string, to: string} | null} the text that was turned last, and what it became */
    this.turned = null;
    this.mark = new FaultMark(this.field);
    this.builder = new WordBuilder({ explain: hooks.explain, insert: digits => this.#insert(digits) }).root;
    const paper = make('div', { class: 'paper' }, this.mark.root, this.field);
    find('editor').replaceChildren(make('div', { class: 'field' }, this.gutter, paper), this.help, this.builder);
    this.#listen();
    this.write(FIRST_TEXT, 'words');
  }

  #listen() {
    /** @type {ReturnType<typeof setTimeout> | undefined} */
    let later;
    const soon = () => {
      clearTimeout(later);
      later = setTimeout(() => this.#look(), PATIENCE);
    };
    this.field.addEventListener('input', () => {
      this.hooks.typed();
      this.mark.show(null);
      this.#number();
      soon();
    });
    find('as-deck').addEventListener('click', () => this.turn('deck'));
    find('as-words').addEventListener('click', () => this.turn('words'));
    this.field.addEventListener('scroll', () => { this.gutter.scrollTop = this.field.scrollTop; });
    for (const it of ['keyup', 'click', 'focus']) this.field.addEventListener(it, soon);
    this.field.addEventListener('keydown', event => {
      if (event.key !== 'Enter' || !(event.ctrlKey || event.metaKey)) return;
      event.preventDefault();
      this.hooks.run();
    });
    this.events.addEventListener('click', event => {
      const it = /** @type {HTMLElement} */ (event.target).closest('[data-event]');
      if (it instanceof HTMLElement) this.hooks.go(Number(it.dataset.event));
    });
  }

  /** What is written: byte for byte what was put there, until the visitor changes it, since a text field has its own ends of lines. */
  get text() { return this.field.value === this.put.shown ? this.put.text : this.field.value; }

  /**
   * @param {string} text
   * @param {Language} [language]
   */
  write(text, language = 'deck') {
    this.field.value = shownOf(text);
    this.put = { text, shown: this.field.value };
    this.language = language;
    this.field.setAttribute('aria-label', NAMES[language]);
    this.builder.hidden = language === 'words';
    find('as-deck').setAttribute('aria-pressed', String(language === 'deck'));
    find('as-words').setAttribute('aria-pressed', String(language === 'words'));
    this.faults.clear();
    this.mark.show(null);
    this.#number();
    this.#look();
    this.edit();
  }

  /** The deck that is written, or what is wrong with its words. */
  async deck() { return this.language === 'words' ? this.hooks.assemble(this.text) : { text: this.text, fault: null }; }

  /**
   * Puts what is written into the other language. A text that is wrong stays, and its fault is told. One that was turned, and is turned back
   * unchanged, is what it was, with its labels and remarks.
   * @param {Language} language
   */
  async turn(language) {
    if (language === this.language) return;
    const from = this.text, kept = this.turned?.to === from ? this.turned.from : null;
    const { text, fault } = kept !== null ? { text: kept, fault: null } :
      await (language === 'words' ? this.hooks.disassemble(from) : this.hooks.assemble(from));
    if (this.text !== from) return;
    if (fault) {
      this.edit();
      this.#tell(fault);
      return;
    }
    this.write(text, language);
    this.turned = { from, to: text };
    this.hooks.turned();
  }

  /** Shows the deck to be written, and not its answers. */
  edit() {
    find('deck').classList.add('writing');
    find('editor').hidden = false;
    this.events.hidden = true;
    find('edit').hidden = true;
    find('run').hidden = false;
  }

  #number() {
    const lines = this.field.value.split('\n');
    this.gutter.replaceChildren(
      ...lines.map((_, at) => make('span', { class: this.faults.has(at) ? 'wrong' : null, title: this.faults.get(at) }, at + 1)));
    this.gutter.scrollTop = this.field.scrollTop;
  }

  /**
   * Puts digits where the cursor stands.
   * @param {string} digits
   */
  #insert(digits) {
    const { selectionStart: from, value } = this.field, before = value.slice(0, from);
    const space = before && !/\s$/.test(before) ? ' ' : '';
    this.field.setRangeText(space + digits, from, this.field.selectionEnd, 'end');
    this.field.focus();
    this.field.dispatchEvent(new Event('input'));
  }

  /**
   * Marks what is wrong with a text, and tells it.
   * @param {import('./words.mjs').WordsFault | null} fault
   */
  #tell(fault) {
    this.faults = new Map(fault && fault.number !== null ? [[fault.number, fault.text]] : []);
    this.#number();
    this.mark.show(fault);
    this.help.replaceChildren(fault ? make('p', { class: 'bad' }, faultLine(fault)) : make('p', { class: 'soft' },
      'A statement a line: a label or a blank, an operation, its operands, as LOOP SIDEQ ID,CC,5. Ctrl and Enter assemble and run it.'));
  }

  // What is wrong with the words that are written.
  async #lookAtWords() {
    const asked = ++this.asked, { fault } = await this.hooks.assemble(this.text);
    if (asked === this.asked) this.#tell(fault);
  }

  // What is wrong in each line, and what helps with the one that the cursor is in.
  async #look() {
    if (this.language === 'words') return this.#lookAtWords();
    const asked = ++this.asked, lines = linesOf(this.text);
    const told = await Promise.all(lines.map(it => (isEvent(it) ? this.hooks.fault(it) : '')));
    if (asked !== this.asked) return;
    this.faults = new Map([...told.entries()].filter(([, fault]) => fault));
    this.#number();
    const at = this.field.value.slice(0, this.field.selectionStart).split('\n').length - 1;
    const help = await this.#helpFor(lines[at] ?? '', at);
    if (asked === this.asked) this.help.replaceChildren(...help);
  }

  /**
   * @param {string} line
   * @param {number} at
   * @returns {Promise<Node[]>}
   */
  async #helpFor(line, at) {
    const forms = formsOf(await this.hooks.forms()), [name = '', ...words] = line.trim().toUpperCase().split(/\s+/);
    const fault = this.faults.get(at), parts = fault ? [make('p', { class: 'bad' }, `Line ${at + 1}: ${fault}`)] : [];
    const others = [...this.faults].filter(([number]) => number !== at);
    if (others.length)
      parts.push(make(
        'p', { class: 'soft' }, `Also wrong: ${others.slice(0, 8).map(([number, text]) => `line ${number + 1}, ${text}`).join('; ')}`));
    const form = forms.find(it => it.name === name);
    if (form) parts.push(make('p', { class: 'form' }, form.form), make('p', { class: 'soft' }, `${form.about}. Answer: ${form.answer}`));
    if (name === 'STORE') parts.push(...await this.#wordsOf(words));
    if (form) return parts;
    const fitting = forms.filter(it => it.name.startsWith(name) && !line.startsWith('*')), shown = fitting.length ? fitting : forms;
    const choices = make('div', { class: 'choices', role: 'group', 'aria-label': 'Events' },
      ...shown.map(it => button(it.name, () => this.#complete(it.name), { title: `${it.form}: ${it.about}` })));
    return [
      ...parts,
      make(
        'p', { class: 'soft' }, name ? 'Events:' : 'An event a line; a line that begins with * is a remark. Ctrl and Enter run the deck.'),
      choices
    ];
  }

  /**
   * What a STORE puts into storage, read as channel command words where it can be one.
   * @param {string[]} words
   */
  async #wordsOf([address = '', ...digits]) {
    const all = digits.join(''), at = parseInt(address, 16);
    if (!/^([0-9A-F]{16})+$/.test(all) || at % 8 || at < 0x50) return [];
    const each = (all.match(/.{16}/g) ?? []).slice(0, MOST_WORDS);
    const texts = await Promise.all(each.map(it => this.hooks.explain('ccw', it)));
    return texts.map(
      (text, number) => make(
        'p', {}, make('span', { class: 'form' }, `${(at + 8 * number).toString(16).toUpperCase().padStart(6, '0')} `), shortened(text)));
  }

  /**
   * Writes the name of an event in the place of the one that was begun.
   * @param {string} name
   */
  #complete(name) {
    const { value, selectionStart } = this.field, from = value.lastIndexOf('\n', selectionStart - 1) + 1;
    const begun = /^\s*\S*/.exec(value.slice(from))?.[0].length ?? 0, hasWords = !['INT', 'TCH', 'RESET'].includes(name);
    this.field.setRangeText(name + (hasWords ? ' ' : ''), from, from + begun, 'end');
    this.field.focus();
    this.field.dispatchEvent(new Event('input'));
  }

  /**
   * Shows the deck that was run, with its answers.
   * @param {DeckLine[]} lines
   * @param {string[]} answers
   * @param {(event: number) => {text: string, kind: string}[]} beside what else is said of an answer
   */
  ran(lines, answers, beside) {
    find('deck').classList.remove('writing');
    find('editor').hidden = true;
    this.events.hidden = find('edit').hidden = false;
    find('run').hidden = true;
    this.events.replaceChildren(...lines.map(({ number, text, event }) => {
      if (event === null)
        return make(
          'div', { class: 'event remark' }, make('span', { class: 'number' }, number + 1), make('span', { class: 'line' }, text || ' '));
      const came = answers[event] ?? '',
            said = [{ text: came, kind: 'came' }, ...beside(event)].filter(it => it.text && it.text !== 'STORE OK' && it.text !== 'KEY OK');
      const words = said.map(it => make('span', { class: `said ${it.kind}` }, ...(it.kind === 'came' ? answered(it.text) : [it.text])));
      return make('div', { class: 'event', 'data-event': event, role: 'button', tabindex: -1 },
        make('span', { class: 'number' }, number + 1), make('span', { class: 'line' }, text), ...words);
    }));
  }

  /**
   * Which event is next.
   * @param {number} next
   */
  stand(next) {
    for (const it of /** @type {NodeListOf<HTMLElement>} */ (this.events.querySelectorAll('[data-event]'))) {
      const event = Number(it.dataset.event);
      it.classList.toggle('later', event > next);
      it.classList.toggle('now', event === next);
      if (event === next) it.scrollIntoView({ block: 'nearest' });
      for (const said of /** @type {NodeListOf<HTMLElement>} */ (it.querySelectorAll('.said'))) said.hidden = event >= next;
    }
  }
}

/**
 * An answer: what was shown of storage as rows in hexadecimal, with the characters beside them.
 * @param {string} text
 * @returns {(Node | string)[]}
 */
export function answered(text) {
  const [, head, digits] = /^(SHOW \w+) ((?:[0-9A-F]{2})+)$/.exec(text) ?? [];
  if (!digits) return [`→ ${text}`];
  return [`→ ${head}`, ...(digits.match(/.{1,32}/g) ?? []).map(row => {
    const letters = (row.match(/../g) ?? []).map(it => LETTERS[parseInt(it, 16)]).join('');
    return make('span', { class: 'shown' }, make('span', {}, row.replace(/.{8}(?=.)/g, '$& ')), make('span', { class: 'ebcdic' }, letters));
  })];
}

/**
 * A fault of words as a line.
 * @param {import('./words.mjs').WordsFault} fault
 */
export function faultLine({ number, column, text }) {
  if (number === null) return text;
  return `Line ${number + 1}${column === null ? '' : `, column ${column + 1}`}: ${text}`;
}

/**
 * The forms of events, as `dasd run --help` has them: `  SIO uuu             Start I/O                SIO uuu CC c, ..`.
 * @param {string} help
 */
export function formsOf(help) {
  return linesOf(help)
    .map(it => /^ {2}(([A-Z]+)\S*(?: \S+)*) {2,}(\S.*?) {2,}(\S.*)$/.exec(it))
    .flatMap(it => (it ? [{ form: it[1], name: it[2], about: it[3], answer: it[4] }] : []));
}

// The lines of an explanation as one: command, address, flags by name, count.
/** @param {string} text */
function shortened(text) {
  const [command, ...rest] = linesOf(text);
  const flags = rest.filter(it => it.startsWith('  ')).map(it => it.trim().split(':')[0]),
        others = rest.filter(it => /^(data address|count|goes)/.test(it));
  return [command.replace(/^command /, ''), ...others, ...flags].join(' · ');
}

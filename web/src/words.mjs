// @ts-check
// Channel programs in words (docs/ASSEMBLER.md): a text and its deck, both ways, as `dasd assemble` and `dasd disassemble` have them. Nothing
// is assembled here.

import { faultText, textOf } from './program.mjs';

/** @typedef {import('./program.mjs').Program} Program */
/**
 * What is wrong with a text: its line, from 0, and its column in that line, from 0, where they are known.
 * @typedef {{ number: number | null, column: number | null, text: string }} WordsFault
 */
/**
 * A text in the other language; or what is wrong, and then an empty one.
 * @typedef {{ text: string, fault: WordsFault | null }} Turned
 */

const PLACE = /^(?:standard input: )?line (\d+)(?:, column (\d+))?: (.*)$/;

/**
 * The deck of a text in words.
 * @param {Program} program
 * @param {string} text
 */
export function assemble(program, text) { return turned(program, 'assemble', text); }

/**
 * A deck in words.
 * @param {Program} program
 * @param {string} deck
 */
export function disassemble(program, deck) { return turned(program, 'disassemble', deck); }

/**
 * @param {Program} program
 * @param {string} command
 * @param {string} text
 * @returns {Turned}
 */
function turned(program, command, text) {
  const ended = program.run([command], new Map(), text);
  if (!ended.status) return { text: textOf(ended.output), fault: null };
  const said = faultText(ended), [, line, column, why] = PLACE.exec(said) ?? [];
  if (!line) return { text: '', fault: { number: null, column: null, text: said.replace(/^standard input: /, '') } };
  const number = Number(line) - 1;
  return { text: '', fault: { number, column: column ? charactersBefore(text.split('\n')[number] ?? '', Number(column) - 1) : null, text: why } };
}

/**
 * The program counts bytes, and a page characters.
 * @param {string} line
 * @param {number} bytes
 */
function charactersBefore(line, bytes) { return textOf(new TextEncoder().encode(line).slice(0, bytes)).length; }

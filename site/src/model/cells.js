/** Cells as numbers and as text. */
import { MODES, MODIFIERS, OPCODES } from "./layout.js";

export { MODES, MODIFIERS, OPCODES };

/**
 * A cell: indices of OPCODES, MODIFIERS and MODES, and the numbers `a` and `b`, which are addresses relative to the
 * cell, 0 to the core size less 1.
 * @typedef {{op: number, modifier: number, aMode: number, bMode: number, a: number, b: number}} Cell
 */

/** The number of 32-bit words of a cell, in a battle and in a warrior. */
export const CELL_WORDS = 3;

/** The owner of a cell that was never loaded or written, in place of the number of a warrior. */
export const NOBODY = 255;
/** The owner of a cell that an edit changed last. */
export const BY_HAND = 254;

/** The first word of an empty cell, `DAT.F $0, $0`; its other words are 0. */
const EMPTY = (MODIFIERS.indexOf("F") << 8) | (MODES.indexOf("$") << 16) | (MODES.indexOf("$") << 24);
/** A cell as `cellText` writes it. */
const TEXT = /^([A-Z]{3})\.([A-Z]{1,2}) ([#$*@{<}>])(-?\d{1,9}), ([#$*@{<}>])(-?\d{1,9})$/;

/**
 * Returns the cell at an index of an array of words.
 * @param {Uint32Array} words
 * @param {number} index
 * @returns {Cell}
 */
export function readCell(words, index) {
  const [tags, a, b] = words.subarray(CELL_WORDS * index, CELL_WORDS * (index + 1));
  return { op: tags & 255, modifier: (tags >> 8) & 255, aMode: (tags >> 16) & 255, bMode: tags >>> 24, a, b };
}

/**
 * Writes a cell at an index of an array of words.
 * @param {Uint32Array} words
 * @param {number} index
 * @param {Cell} cell
 */
export function writeCell(words, index, { op, modifier, aMode, bMode, a, b }) {
  words.set([(op | (modifier << 8) | (aMode << 16) | (bMode << 24)) >>> 0, a, b], CELL_WORDS * index);
}

/**
 * Returns whether the cell at an index of an array of words is empty.
 * @param {Uint32Array} words
 * @param {number} index
 */
export function isEmpty(words, index) {
  const first = CELL_WORDS * index;
  return words[first] === EMPTY && words[first + 1] === 0 && words[first + 2] === 0;
}

/**
 * Returns a number of a cell as it is printed: at most half the core size from 0.
 * @param {number} value
 * @param {number} core
 */
export const signed = (value, core) => (value > core / 2 ? value - core : value);

/**
 * Returns the text of a cell as the program lists it.
 * @param {Cell} cell
 * @param {number} core
 */
export function cellText({ op, modifier, aMode, bMode, a, b }, core) {
  const first = `${MODES[aMode]}${signed(a, core)}`;
  return `${OPCODES[op]}.${MODIFIERS[modifier]} ${first}, ${MODES[bMode]}${signed(b, core)}`;
}

/**
 * Returns the cell of a text such as `MOV.I $0, $1`, or null for any other text.
 * @param {string} text
 * @param {number} core
 * @returns {Cell | null}
 */
export function parseCell(text, core) {
  const found = TEXT.exec(text.trim());
  if (!found) return null;
  const [op, modifier] = [OPCODES.indexOf(found[1]), MODIFIERS.indexOf(found[2])];
  if (op < 0 || modifier < 0) return null;
  const number = (/** @type {string} */ digits) => ((Number(digits) % core) + core) % core;
  const [aMode, bMode] = [MODES.indexOf(found[3]), MODES.indexOf(found[5])];
  return { op, modifier, aMode, bMode, a: number(found[4]), b: number(found[6]) };
}

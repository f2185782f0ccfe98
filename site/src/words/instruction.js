/** An instruction in plain English. Cells are called by the names of their addresses, or else by their distances. */
import WORDS from "../../../python/corewar/explain/instructions.json";
import { MODES, MODIFIERS, OPCODES, signed } from "../model/cells.js";

/** @typedef {import("../model/cells.js").Cell} Cell */
/**
 * Where an instruction is. `name` returns the name of an address, or "" if it has none.
 * @typedef {{core: number, address?: number, name?: (address: number) => string}} Where
 */
/** @typedef {{letter: "A" | "B", mode: string, value: number}} Operand */

const { cells: CELLS, numbers: NUMBERS, steps: STEPS } = WORDS;
/** @type {Record<string, string[]>} */
const SENTENCES = WORDS.sentences;

/**
 * For each modifier that uses one field of a cell: the field at the A-operand, and the field at the B-operand.
 * @type {Record<string, ["A" | "B", "A" | "B"]>}
 */
const FIELDS = { A: ["A", "A"], B: ["B", "B"], AB: ["A", "B"], BA: ["B", "A"] };

/**
 * Returns a text with words in place of their names in braces.
 * @param {string} text
 * @param {Record<string, string>} words
 */
const filled = (text, words) => text.replace(/\{(\w+)\}/g, (_, name) => words[name]);

/**
 * Returns a cell by the name of its address, or else by its distance from the instruction.
 * @param {number} value
 * @param {Where} where
 */
function distanceWords(value, { core, address, name }) {
  const distance = signed(value, core);
  if (distance === 0) return CELLS.this;
  const named = name && address !== undefined ? name((address + value) % core) : "";
  if (named) return named;
  if (distance === 1) return CELLS.next;
  if (distance === -1) return CELLS.before;
  return filled(distance > 0 ? CELLS.ahead : CELLS.back, { distance: Math.abs(distance).toLocaleString("en") });
}

/**
 * Returns the cell to which an operand leads.
 * @param {Operand} operand
 * @param {Where} where
 */
function targetWords({ mode, value }, where) {
  if (mode === "#") return CELLS.this;
  const cell = distanceWords(value, where);
  return mode === "$" ? cell : filled(CELLS.pointed, { pointer: pointerWords(mode, cell) });
}

/**
 * @param {string} mode
 * @param {string} cell
 */
const pointerWords = (mode, cell) => filled(NUMBERS.one, { field: "*{}".includes(mode) ? "A" : "B", cell });

/**
 * Returns what a mode does to its pointer, or "".
 * @param {Operand} operand
 * @param {Where} where
 */
function stepWords({ mode, value }, where) {
  const pointer = pointerWords(mode, distanceWords(value, where));
  if ("{<".includes(mode)) return filled(STEPS.before, { pointer });
  return "}>".includes(mode) ? filled(STEPS.after, { pointer }) : "";
}

/**
 * Returns a number that an operand leads to.
 * @param {"A" | "B"} field
 * @param {Operand} operand
 * @param {Where} where
 */
function fieldWords(field, operand, where) {
  if (operand.mode === "#" && field === operand.letter) return signed(operand.value, where.core).toLocaleString("en");
  return filled(NUMBERS.one, { field, cell: targetWords(operand, where) });
}

/**
 * Returns the words that the sentences of opcodes name: the cells of the operands, the numbers that an instruction
 * takes and leaves, and what it tests.
 * @param {string} kind a modifier
 * @param {[Operand, Operand]} operands
 * @param {Where} where
 * @returns {Record<string, string>}
 */
function wordsOf(kind, [first, second], where) {
  const [A, B] = [targetWords(first, where), targetWords(second, where)];
  const words = { A, B, source: A === CELLS.this ? CELLS.instruction : A };
  const fields = FIELDS[kind];
  if (fields) {
    const [from, to] = [fieldWords(fields[0], first, where), fieldWords(fields[1], second, where)];
    return { ...words, from, to, tested: to };
  }
  const from = filled(kind === "X" ? NUMBERS.crosswise : NUMBERS.both, { cell: A });
  return { ...words, from, to: filled(NUMBERS.those, { cell: B }), tested: filled(NUMBERS.each, { cell: B }) };
}

/**
 * Returns what an instruction does, as a sentence.
 * @param {Cell} cell
 * @param {Where} where
 */
export function instructionWords({ op, modifier, aMode, bMode, a, b }, where) {
  const [kind, sentences] = [MODIFIERS[modifier], SENTENCES[OPCODES[op]]];
  /** @type {[Operand, Operand]} */
  const operands = [
    { letter: "A", mode: MODES[aMode], value: a },
    { letter: "B", mode: MODES[bMode], value: b },
  ];
  // The sentences of an opcode are for one number, for both, and for whole cells; the last one is for the rest.
  const last = kind === "I" ? 2 : 1;
  const sentence = sentences[Math.min(FIELDS[kind] ? 0 : last, sentences.length - 1)];
  const text = filled(sentence, wordsOf(kind, operands, where));
  // A jump has no use for its other operand, but its pointers change all the same.
  const added = operands.map((operand) => stepWords(operand, where)).filter(Boolean).join(", ");
  return `${text[0].toUpperCase()}${text.slice(1)}${added ? ` (${added})` : ""}.`;
}

/** Why a warrior died, in sentences. */
import { cellText, readCell } from "../model/cells.js";
import { place } from "./battle.js";

/** @typedef {import("./battle.js").Known} Known */
/**
 * A turn that led to a death. Its kind says what it did to the cell at `target`, which has the words `after` then:
 *
 * - `aim`: it set the cell, which is the pointer by which the write found its cell
 * - `write`: it copied an instruction to the cell
 * - `change`: it changed a number of that instruction
 * - `arrival`: it led the process to the cell
 * - `death`: it executed the cell
 *
 * `executed` is the turn's instruction, at `address`; `origin` is the index of the loaded cell of which that is a copy.
 * @typedef {object} Link
 * @property {"aim" | "write" | "change" | "arrival" | "death"} kind
 * @property {number} turn
 * @property {number} warrior
 * @property {number} address
 * @property {number} target
 * @property {Uint32Array} executed
 * @property {Uint32Array} after
 * @property {number} origin
 */

/**
 * Returns how a turn led to a death, with code in backquotes.
 * @param {Link} link
 * @param {Known} known
 */
export function linkWords({ kind, warrior, target, executed, after }, known) {
  const text = (/** @type {Uint32Array} */ words) => `\`${cellText(readCell(words, 0), known.core)}\``;
  const [name, there] = [known.names[warrior], place(target, known)];
  switch (kind) {
    case "aim":
      return `${name} set the pointer ${there} for its write.`;
    case "write":
      return `${name} wrote ${text(after)} to ${there}.`;
    case "change":
      return `${name} changed ${there} to ${text(after)}.`;
    case "arrival":
      return `The last process of ${name} went to ${there}.`;
    default:
      return `${name} executed ${text(executed)} there, and died.`;
  }
}

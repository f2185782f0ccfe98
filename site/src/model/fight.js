/** What is fought: a round of a match, with the edits that are made in it, which can be written as text. */
import { cellText, parseCell } from "./cells.js";

/** @typedef {import("./cells.js").Cell} Cell */
/** @typedef {import("./settings.js").Settings} Settings */
/** @typedef {{name: string, text: string}} Source a source or a load file, and the name of its file */
/**
 * An edit of a battle. "cell" sets the cells from `address` to `last`; "add" adds a process at `address`. `place` is
 * the index of a process in its queue, 0 for the next one.
 * @typedef {{kind: "cell", address: number, last: number, cell: Cell}
 *   | {kind: "move", warrior: number, place: number, address: number}
 *   | {kind: "kill", warrior: number, place: number}
 *   | {kind: "add", warrior: number, address: number}} Edit
 */
/** @typedef {{turn: number, edit: Edit}} Made an edit, and the turn after which it is made */
/**
 * A round of a match; `round` is its number, from 0. `position` is the address of the second of two warriors, or 0 if
 * positions are drawn from the seed.
 * @typedef {object} Fight
 * @property {Settings} settings
 * @property {number} seed
 * @property {number} rounds
 * @property {number} round
 * @property {number} position
 * @property {string} formula
 * @property {Source[]} warriors
 * @property {Made[]} edits
 */

/**
 * Returns an edit as the debugger's command that makes it.
 * @param {Edit} edit
 * @param {number} core
 */
export function editText(edit, core) {
  switch (edit.kind) {
    case "cell": {
      const { address, last, cell } = edit;
      return `${address === last ? `edit ${address}` : `fill ${address} ${last}`} ${cellText(cell, core)}`;
    }
    case "move":
      return `move ${edit.warrior} ${edit.place} ${edit.address}`;
    case "kill":
      return `kill ${edit.warrior} ${edit.place}`;
    default:
      return `spawn ${edit.warrior} ${edit.address}`;
  }
}

/**
 * Returns the edit of a text that `editText` wrote, or null for any other text.
 * @param {string} text
 * @param {number} core
 * @returns {Edit | null}
 */
export function parseEdit(text, core) {
  const set = /^(?:edit (\d{1,7})|fill (\d{1,7}) (\d{1,7})) (.*)$/.exec(text);
  if (set) {
    const [address, last, cell] = [Number(set[1] ?? set[2]), Number(set[1] ?? set[3]), parseCell(set[4], core)];
    return cell && address <= last && last < core ? { kind: "cell", address, last, cell } : null;
  }
  const found = /^(move|kill|spawn)((?: \d{1,7}){2,3})$/.exec(text);
  if (!found) return null;
  const [warrior, second, third] = found[2].trim().split(" ").map(Number);
  if (found[1] === "move") return third < core ? { kind: "move", warrior, place: second, address: third } : null;
  if (third !== undefined) return null;
  if (found[1] === "kill") return { kind: "kill", warrior, place: second };
  return second < core ? { kind: "add", warrior, address: second } : null;
}

/** The changes of a cell in a history. */
import { BY_HAND } from "../model/cells.js";

/** @typedef {{turn: number, warrior: number, before: Uint32Array, after: Uint32Array}} CellChange */

/** The number of changes of a cell that are reported. */
const MAX_CHANGES = 5;

/**
 * Returns the last changes of a cell by turns since its last edit and up to a turn, the latest first; the turn of the
 * next change, or null; and the last edit, or null if there is none or a turn has changed the cell since.
 * @param {import("./history.js").History} history
 * @param {number} address
 * @param {number} turn
 */
export function changesOf(history, address, turn) {
  const isEdited = (/** @type {number} */ at) => history.place(at).owner(address) === BY_HAND;
  /** @type {CellChange[]} */
  const changes = [];
  // From the turn of the last change to the turn of the change before it, and so on.
  for (let at = turn; changes.length < MAX_CHANGES && !isEdited(at); at--) {
    at = history.place(at).written(address);
    if (at === 0) break;
    const { warrior, changes: all } = history.deed(at);
    const { before, after } = all.filter((change) => change.address === address)[0];
    changes.push({ turn: at, warrior, before, after });
  }
  const edited = isEdited(turn) ? history.byHand(address, turn) : null;
  return { changes, next: history.nextChange(address, turn), edited };
}

/** Why a warrior died: the turns that led to its death. */
import { by } from "../battle/records.js";
import { BY_HAND, MODES, readCell } from "../model/cells.js";
import { CHANGES, EXECUTES, NUMBER_ADDRESS, NUMBER_ORIGIN, NUMBER_QUEUED } from "../model/layout.js";

/** @typedef {import("../battle/history.js").History} History */
/** @typedef {import("../battle/story.js").Event} Event */
/** @typedef {import("../words/why.js").Link} Link */

/** Modes by which the number of a cell leads to another cell. */
const INDIRECT = "*@{<}>";

/**
 * Returns the turns that led to the death of a warrior, in the order of time; none if it lives or an edit killed it.
 *
 * - the turns that aimed at, wrote and changed the cell on which it died
 * - the turn that led its process to that cell; and if another warrior wrote the instruction of that turn, the turns
 *   that aimed at, wrote and changed it
 * - the turn in which it died
 * @param {History} history
 * @param {number} warrior
 * @returns {Link[]}
 */
export function chainOf(history, warrior) {
  const death = history.deaths.find((one) => one.warrior === warrior);
  // A warrior that an edit killed died on no cell.
  if (!death || death.address < 0) return [];
  const { turn, address } = death;
  const arrival = arrivalOf(history, death);
  const lead = arrival ? writesOf(history, arrival.address, arrival.turn) : [];
  // If the warrior itself wrote that instruction, the turns that wrote it would only lead away from the death.
  const isTrapped = lead.some((link) => link.kind !== "aim" && link.warrior !== warrior);
  const links = [...(isTrapped ? lead : []), ...writesOf(history, address, turn), ...(arrival ? [arrival] : [])];
  const order = links.map((link, index) => ({ link, index }));
  order.sort((one, other) => one.link.turn - other.link.turn || one.index - other.index);
  return [...order.map(({ link }) => link), linkOf(history, "death", turn, address)];
}

/**
 * Returns the turn that copied to a cell the instruction that it has in turn `before`, and the last earlier turn that
 * changed the cell, each after the turn that aimed at it; none if the cell was loaded or edited.
 * @param {History} history
 * @param {number} address
 * @param {number} before
 */
function writesOf(history, address, before) {
  const [changed, copied] = [changedIn(history, address, before - 1), copiedIn(history, address, before - 1)];
  return [...new Set([copied, changed])].filter(Boolean).flatMap((turn) => {
    const write = linkOf(history, turn === copied ? "write" : "change", turn, address);
    const aim = aimOf(history, write);
    return aim ? [aim, write] : [write];
  });
}

/**
 * Returns the last turn, at most `turn`, that changed a cell; 0 if the cell was loaded or an edit changed it since.
 * @param {History} history
 * @param {number} address
 * @param {number} turn
 */
export function changedIn(history, address, turn) {
  const place = history.place(turn);
  return place.owner(address) === BY_HAND ? 0 : place.written(address);
}

/**
 * Returns the last turn, at most `turn`, that copied to a cell the instruction that it has after `turn`, in place of a
 * different one; 0 if the instruction was loaded or an edit set it.
 * @param {History} history
 * @param {number} address
 * @param {number} turn
 */
export function copiedIn(history, address, turn) {
  const origin = history.place(turn).origin(address);
  const edited = history.byHand(address, turn)?.turn ?? 0;
  /** @type {import("../battle/records.js").ConditionRow[]} */
  const rows = [
    [CHANGES, NUMBER_ADDRESS, address, address],
    // A range whose end is below its start goes around.
    [CHANGES, NUMBER_ORIGIN, origin + 1, (origin - 1) >>> 0],
  ];
  for (const found of history.find(rows, edited, turn, false)) if (found.length) return found[found.length - 1].turn;
  return 0;
}

/**
 * Returns a turn as a link of the chain.
 * @param {History} history
 * @param {Link["kind"]} kind
 * @param {number} turn
 * @param {number} target the address of the cell that the link is about
 * @returns {Link}
 */
function linkOf(history, kind, turn, target) {
  const { warrior, address } = history.deed(turn);
  const executed = history.place(turn - 1).cell(address);
  const origin = history.origin(address, turn - 1);
  return { kind, turn, warrior, address, target, executed, after: history.place(turn).cell(target), origin };
}

/**
 * Returns the turn that set the pointer by which a write found its cell, or null if there is none.
 * @param {History} history
 * @param {Link} write
 */
function aimOf(history, { turn, address, target, executed }) {
  const { bMode, b } = readCell(executed, 0);
  const pointer = (address + b) % history.core;
  // A read limit folds addresses: then the pointer is another cell.
  const isPointer = INDIRECT.includes(MODES[bMode]) && pointer !== target;
  if (!isPointer || !history.deed(turn).touched.includes(pointer)) return null;
  const set = changedIn(history, pointer, turn - 1);
  return set > 0 ? linkOf(history, "aim", set, pointer) : null;
}

/**
 * Returns the turn that led the process of a death to its cell, or null if it was loaded or moved there. The warrior
 * has no other process when it dies, so this is its last turn that queued a process.
 * @param {History} history
 * @param {Event} death
 */
function arrivalOf(history, { turn, warrior, address }) {
  const queues = /** @type {const} */ ([EXECUTES, NUMBER_QUEUED, 1, 2]);
  for (const found of history.find([queues, by(warrior)], 0, turn - 1, false)) {
    if (!found.length) continue;
    const last = found[found.length - 1].turn;
    // An edit may have moved the process.
    return history.deed(last).queued.includes(address) ? linkOf(history, "arrival", last, address) : null;
  }
  return null;
}

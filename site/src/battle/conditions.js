/** Conditions on turns, and searches for them in a battle, forwards and backwards. */
import * as layout from "../model/layout.js";
import { EVENTS } from "./records.js";

const { CHANGES, EXECUTES, NUMBER_ADDRESS, NUMBER_NEW_OPCODE, NUMBER_OPCODE, NUMBER_ORIGIN } = layout;
const { NUMBER_OWNER, NUMBER_WARRIOR, OPCODES, READS } = layout;

/** @typedef {import("./history.js").History} History */
/**
 * A condition on a turn, and on a cell that it uses.
 *
 * - `word`: with `at`, `changes` or `reads`, the turn executes, changes or reads the cell; with `splits`, `ends` or
 *   `dies`, its warrior gains a process, loses one or dies; `moves` is any turn. The last four use the executed cell
 * - `cells`: the first and the last address that the cell can have, around the end of the core if the last is smaller
 * - `of`: the warrior that changed the cell last, or that was loaded there
 * - `origin`: the first and the last address at which its instruction can have been loaded
 * - `was`, `becomes`: its opcode before the turn, and the different opcode that the turn gave it
 * - `by`: the warrior of the turn
 * - `and`: a condition that the same turn meets, too, with the same cell if the word is the same
 *
 * A condition holds at a place, which is a number of executed turns: after the turn that meets it, or before that turn
 * if a word is `at`.
 * @typedef {{word: Word, cells?: number[], of?: number, origin?: number[], was?: string, becomes?: string, by?: number,
 *   and?: Condition}} Condition
 */
/** @typedef {"at" | "changes" | "reads" | "splits" | "ends" | "dies" | "moves"} Word */
/** @typedef {{turn: number, warrior: number}} Held a place where a condition holds, and the warrior of its turn */

/**
 * How a turn uses the cells of a condition.
 * @type {Partial<Record<Word, number>>}
 */
const WAYS = { at: EXECUTES, changes: CHANGES, reads: READS };
/** The last address of a condition on any cell. */
const MAX = 0xffffffff;

/**
 * Returns a condition as conditions of the library, all of which a turn has to meet.
 * @param {Condition} condition
 * @param {number} core
 * @returns {import("./records.js").ConditionRow[]}
 */
function rowsOf({ word, cells, of, origin, was, becomes, by, and }, core) {
  const way = WAYS[word] ?? EXECUTES;
  /** @type {import("./records.js").ConditionRow[]} */
  const rows = [[way, NUMBER_ADDRESS, cells?.[0] ?? 0, cells?.[1] ?? MAX]];
  const add = (/** @type {number} */ number, /** @type {number} */ first, last = first) =>
    rows.push([way, number, first, last]);
  if (of !== undefined) add(NUMBER_OWNER, of);
  if (origin) {
    add(NUMBER_ORIGIN, origin[0], origin[1]);
    // A range around the end of the core would include the core size, which is the origin of edited cells.
    add(NUMBER_ORIGIN, 0, core - 1);
  }
  if (was) add(NUMBER_OPCODE, OPCODES.indexOf(was));
  if (becomes) {
    const opcode = OPCODES.indexOf(becomes);
    add(NUMBER_NEW_OPCODE, opcode);
    // A range whose end is below its start goes around.
    add(NUMBER_OPCODE, opcode + 1, (opcode - 1) >>> 0);
  }
  if (by !== undefined) add(NUMBER_WARRIOR, by);
  if (EVENTS[word]) rows.push(EVENTS[word]);
  return [...rows, ...(and ? rowsOf(and, core) : [])];
}

/**
 * Returns whether a condition is about the turn after the place where it holds.
 * @param {Condition} condition
 * @returns {boolean}
 */
const isBefore = ({ word, and }) => word === "at" || (and !== undefined && isBefore(and));

/**
 * Yields the places of a span at which a condition holds, as `turn`, and the warriors. Each list is in order; the
 * earliest list comes first if `isForward`, otherwise the latest.
 * @param {History} history
 * @param {Condition} condition
 * @param {{first: number, last: number, isForward: boolean}} span
 * @returns {Generator<Held[]>}
 */
function* placesOf(history, condition, { first, last, isForward }) {
  const shift = isBefore(condition) ? 1 : 0;
  for (const found of history.find(rowsOf(condition, history.core), first - 1 + shift, last + shift, isForward)) {
    yield found.map(({ turn, warrior }) => ({ turn: turn - shift, warrior }));
  }
}

/**
 * Returns the first place of a span at which a condition holds, or the last one unless `isForward`; null if there is
 * none.
 * @param {History} history
 * @param {Condition} condition
 * @param {{first: number, last: number, isForward: boolean}} span
 */
function nearest(history, condition, span) {
  for (const places of placesOf(history, condition, span)) {
    if (places.length) return places[span.isForward ? 0 : places.length - 1].turn;
  }
  return null;
}

/**
 * Returns the nearest place at which one of the conditions holds, after `turn` if `isForward` and before it otherwise,
 * and the index of that condition; null if there is none.
 * @param {History} history
 * @param {Condition[]} conditions
 * @param {number} turn
 * @param {boolean} isForward
 */
export function search(history, conditions, turn, isForward) {
  const span = isForward ? { first: turn + 1, last: history.end } : { first: 0, last: turn - 1 };
  let found = null;
  for (const [index, condition] of conditions.entries()) {
    const place = nearest(history, condition, { ...span, isForward });
    if (place === null) continue;
    found = { turn: place, index };
    // Only a nearer place counts.
    if (isForward) span.last = place - 1;
    else span.first = place + 1;
  }
  return found;
}

/**
 * Returns how often a condition holds, and the first places where it does, at most `most`.
 * @param {History} history
 * @param {Condition} condition
 * @param {number} most
 */
export function count(history, condition, most) {
  const found = { count: 0, first: /** @type {Held[]} */ ([]) };
  for (const places of placesOf(history, condition, { first: 0, last: history.end, isForward: true })) {
    found.count += places.length;
    if (found.first.length < most) found.first.push(...places.slice(0, most - found.first.length));
  }
  return found;
}

/**
 * Returns the places where one of the conditions holds, in order, at most `most`.
 * @param {History} history
 * @param {Condition[]} conditions
 * @param {number} most
 */
export function hits(history, conditions, most) {
  const found = conditions.map((condition) => {
    /** @type {number[]} */
    const own = [];
    for (const places of placesOf(history, condition, { first: 0, last: history.end, isForward: true })) {
      own.push(...places.map(({ turn }) => turn));
      if (own.length >= most) break;
    }
    return own;
  });
  return [...new Set(found.flat())].sort((one, other) => one - other).slice(0, most);
}

/**
 * Returns the first place at which a number of cycles is completed, or null if the battle ends before.
 * @param {History} history
 * @param {number} cycle
 */
export function completed(history, cycle) {
  // No turn and no edit leads back to an earlier cycle, so the place is found by bisection.
  let [low, high] = [0, history.end];
  if (history.place(high).battle.cycle < cycle) return null;
  while (low < high) {
    const middle = Math.floor((low + high) / 2);
    if (history.place(middle).battle.cycle < cycle) low = middle + 1;
    else high = middle;
  }
  return low;
}

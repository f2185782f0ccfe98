/** What the library says of turns: the records of turns, and which turns meet conditions. */
import * as layout from "../model/layout.js";
import { CELL_WORDS } from "../model/cells.js";

/** @typedef {import("../engine/machine.js").Condition} ConditionRow */
/** @typedef {{address: number, before: Uint32Array, after: Uint32Array}} Change a write of a cell, with its words */
/**
 * What a turn did: `queued` has the addresses of the processes that it queued, `touched` the cells that it touched,
 * `changes` the cells that it wrote, even if they are as before.
 * @typedef {{warrior: number, address: number, died: boolean, queued: number[], touched: number[],
 *   changes: Change[]}} Deed
 */
/**
 * A turn that was found. `queued` is how many processes it queued; `owner` and `written` are the owner of the cell that
 * it executed and the turn that changed that cell last, before this turn.
 * @typedef {{turn: number, warrior: number, queued: number, address: number, owner: number, written: number}} Found
 */

const { EXECUTES, MarsChange, MarsFound, MarsPast, MarsRecord, MarsTouched } = layout;
const { NUMBER_DIED, NUMBER_QUEUED, NUMBER_WARRIOR } = layout;
const FOUND_WORDS = MarsFound.size / 4;

/**
 * Conditions of the library: a warrior gains a process, loses one, or dies.
 * @type {Record<string, ConditionRow>}
 */
export const EVENTS = {
  splits: [EXECUTES, NUMBER_QUEUED, 2, 2],
  ends: [EXECUTES, NUMBER_QUEUED, 0, 0],
  dies: [EXECUTES, NUMBER_DIED, 1, 1],
};

/**
 * Returns the condition that a warrior makes the turn.
 * @param {number} warrior
 * @param {number} way how the turn uses the cell of the other conditions
 * @returns {ConditionRow}
 */
export const by = (warrior, way = EXECUTES) => [way, NUMBER_WARRIOR, warrior, warrior];

/**
 * Yields turns that were found.
 * @param {Uint32Array} rows
 * @returns {Generator<Found>}
 */
export function* foundIn(rows) {
  for (let at = 0; at < rows.length; at += FOUND_WORDS) {
    const field = (/** @type {number} */ offset) => rows[at + offset / 4];
    yield {
      turn: field(MarsFound.turn),
      warrior: field(MarsFound.warrior),
      queued: field(MarsFound.queued),
      address: field(MarsFound.address),
      owner: field(MarsFound.past + MarsPast.owner),
      written: field(MarsFound.past + MarsPast.turn),
    };
  }
}

/**
 * Reads the record of a turn. Several writes of a cell are one change, from the cell before the first of them to the
 * cell after the last one.
 * @param {{records: Uint32Array, touched: Uint32Array}} rows
 * @returns {Deed}
 */
export function deedOf({ records, touched }) {
  const field = (/** @type {number} */ offset) => records[offset / 4];
  const cell = (/** @type {number} */ offset) => records.slice(offset / 4, offset / 4 + CELL_WORDS);
  /** @type {Change[]} */
  const changes = [];
  for (let index = 0; index < field(MarsRecord.changes); index++) {
    const at = MarsRecord.change + MarsChange.size * index;
    const address = field(at + MarsChange.address);
    const [before, after] = [cell(at + MarsChange.before), cell(at + MarsChange.after)];
    const earlier = changes.find((change) => change.address === address);
    if (earlier) earlier.after = after;
    else changes.push({ address, before, after });
  }
  const [first, read] = [MarsRecord.process / 4, MarsTouched.address / 4];
  return {
    warrior: field(MarsRecord.warrior),
    address: field(MarsRecord.address),
    died: field(MarsRecord.died) === 1,
    queued: [...records.subarray(first, first + field(MarsRecord.queued))],
    touched: [...touched.subarray(read, read + touched[MarsTouched.count / 4])],
    changes,
  };
}

/**
 * Returns whether a write changes its cell.
 * @param {Change} change
 */
export const isChanged = ({ before, after }) => before.some((word, index) => word !== after[index]);

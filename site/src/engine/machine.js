/** Battles on the machine: the calls of mars.h that take a battle as a block. */
import {
  ADD_PROCESS,
  KILL_PROCESS,
  MOVE_PROCESS,
  SET_CELL,
  MarsEdit,
  MarsFound,
  MarsMoment,
  MarsRecord,
  MarsTouched,
} from "../model/layout.js";
import { writeCell } from "../model/cells.js";
import { Call } from "./call.js";

/** @typedef {import("./battle.js").Battle} Battle */
/** @typedef {import("./call.js").Exports} Exports */
/** @typedef {{battle: Battle, pasts: Uint32Array}} Followed a battle, and the past of each cell: words of MarsPast */
/** @typedef {readonly [way: number, number: number, first: number, last: number]} Condition a MarsCondition */

const RECORD_WORDS = MarsRecord.size / 4;
const TOUCHED_WORDS = MarsTouched.size / 4;
const FOUND_WORDS = MarsFound.size / 4;
const MOMENT_WORDS = MarsMoment.size / 4;
/** The number of births for which `ancestors` allocates at first. */
const BIRTHS = 1000;
const KINDS = { cell: SET_CELL, move: MOVE_PROCESS, kill: KILL_PROCESS, add: ADD_PROCESS };

export class Machine {
  /** @type {Exports} */
  exports;
  /** Whether a call has trapped: the module may then be in the middle of a change of its memory. */
  #failed = false;

  /** @param {WebAssembly.Instance} instance */
  constructor(instance) {
    this.exports = /** @type {Exports} */ (/** @type {unknown} */ (instance.exports));
  }

  /** The number of bytes of the module's memory. */
  get memory() {
    return this.exports.memory.buffer.byteLength;
  }

  /**
   * Makes turns of a battle in place: `turns` of them, or all that are left if these are fewer. Returns the words of
   * the records and of the touched cells of the first turns, as MarsRecord and MarsTouched of mars.h.
   * @param {Battle} battle
   * @param {number} turns
   * @param {{records?: number, touched?: number}} rows how many turns to report at most; a RangeError if below 0
   */
  play(battle, turns, { records = 0, touched = 0 } = {}) {
    return this.within((call) => {
      const first = battle.turns;
      const [block, words] = call.block(battle);
      const recordRows = call.allocate(MarsRecord.size * records);
      const touchedRows = call.allocate(MarsTouched.size * touched);
      const given = [block, words, turns, recordRows, BigInt(records), touchedRows, BigInt(touched)];
      call.make("mars_play", given);
      battle.words.set(call.words(block, battle.words.length));
      const played = battle.turns - first;
      return {
        records: call.words(recordRows, RECORD_WORDS * Math.min(played, records)).slice(),
        touched: call.words(touchedRows, TOUCHED_WORDS * Math.min(played, touched)).slice(),
      };
    });
  }

  /**
   * Makes turns of a battle in place, as `play`, and keeps the past of each cell.
   * @param {Followed} followed
   * @param {number} turns
   */
  follow(followed, turns) {
    this.within((call) => {
      const given = call.followed(followed, turns);
      call.make("mars_follow", [...given, 0n, 0n, 0n, 0n, call.allocate(4)]);
      call.takeFollowed(followed, given);
    });
  }

  /**
   * Returns which of the next `turns` turns meet all conditions, the first `most` of them: the words of rows as
   * MarsFound. The battle stays as it is.
   * @param {Followed} followed
   * @param {number} turns
   * @param {Condition[]} conditions
   * @param {number} most the maximum number of rows
   */
  find(followed, turns, conditions, most) {
    return this.within((call) => {
      const [rows, count] = [call.allocate(MarsFound.size * most), call.allocate(4)];
      const given = [...call.followed(followed, turns), ...call.conditions(conditions)];
      call.make("mars_follow", [...given, rows, BigInt(most), count]);
      const [found] = call.words(count, 1);
      return call.words(rows, FOUND_WORDS * Math.min(found, most)).slice();
    });
  }

  /**
   * Makes turns of a battle in place, as `follow`. Returns the battle after each step: the words of rows as MarsMoment,
   * which count the turns since the row before that meet all conditions.
   * @param {Followed} followed
   * @param {number} step the number of turns between two rows
   * @param {number} count the number of rows
   * @param {Condition[]} conditions
   */
  moments(followed, step, count, conditions) {
    return this.within((call) => {
      const rows = call.allocate(MarsMoment.size * count);
      const given = call.followed(followed, step);
      call.make("mars_moments", [...given, ...call.conditions(conditions), rows, BigInt(count)]);
      call.takeFollowed(followed, given);
      return call.words(rows, MOMENT_WORDS * count).slice();
    });
  }

  /**
   * Finds the turns in which a process and its ancestors were born; the battle stays as it is. Returns these turns, the
   * birth of the process itself first, and the place, in the queue of the battle, of the process from which all of them
   * descend. Throws a MarsError if there is no such process.
   * @param {Battle} battle
   * @param {number} turns
   * @param {number} warrior
   * @param {number} place of the process in its queue after `turns` turns, or at the end if the battle ends before
   */
  ancestors(battle, turns, warrior, place) {
    return this.within((call) => {
      const given = [...call.block(battle), turns, warrior, place];
      const [count, first] = [call.allocate(4), call.allocate(4)];
      const find = (/** @type {number} */ most) => {
        const rows = call.allocate(4 * most);
        call.make("mars_ancestors", [...given, rows, BigInt(most), count, first]);
        return rows;
      };
      let rows = find(BIRTHS);
      const [births] = call.words(count, 1);
      if (births > BIRTHS) rows = find(births);
      return { births: call.words(rows, births).slice(), first: call.words(first, 1)[0] };
    });
  }

  /**
   * Edits a battle in place. Throws a MarsError if the edit is impossible; then the battle is unchanged.
   * @param {Battle} battle
   * @param {{kind: "cell" | "move" | "kill" | "add", warrior?: number, place?: number, address?: number,
   *   cell?: import("../model/cells.js").Cell}} edit
   */
  edit(battle, { kind, warrior = 0, place = 0, address = 0, cell }) {
    this.within((call) => {
      const [block, words] = call.block(battle);
      const edit = call.allocate(MarsEdit.size);
      const fields = call.words(edit, MarsEdit.size / 4);
      fields.fill(0);
      fields.set([KINDS[kind], warrior, place, address]);
      if (cell) writeCell(fields.subarray(MarsEdit.cell / 4), 0, cell);
      call.make("mars_edit", [block, words, edit]);
      battle.words.set(call.words(block, battle.words.length));
    });
  }

  /**
   * Checks that the words are a battle. Throws a MarsError if they are not.
   * @param {Battle} battle
   */
  check(battle) {
    this.within((call) => call.make("mars_check", call.block(battle)));
  }

  /**
   * Returns what the debugger prints for some lines of commands over a battle, which stays as it is.
   * @param {Battle} battle
   * @param {string} lines
   * @param {{history?: number}} size the number of places that can be walked back to
   */
  debug(battle, lines, { history = 200_000 } = {}) {
    return this.within((call) => {
      const given = [...call.block(battle), history, ...call.bytes(lines)];
      return call.text("mars_debug", given, 65_536);
    });
  }

  /**
   * Returns what `act` returns, and frees the memory that it allocated. After a trap every call throws an Error.
   * @template T
   * @param {(call: Call) => T} act
   * @returns {T}
   */
  within(act) {
    if (this.#failed) throw new Error("the machine has failed in an earlier call; load it again");
    const call = new Call(this.exports);
    try {
      return act(call);
    } catch (error) {
      this.#failed = error instanceof WebAssembly.RuntimeError;
      throw error;
    } finally {
      if (!this.#failed) call.end();
    }
  }
}

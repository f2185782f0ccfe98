/** A battle at a glance: how many cells and processes each warrior has at some moments. */
import { MarsMoment } from "../model/layout.js";
import { EVENTS } from "./records.js";

/** @typedef {import("./place.js").Place} Place */
/**
 * Some moments: the turn of each; the numbers of cells and of processes that each warrior has, moment by moment; and
 * the numbers of splits and of ends of processes since the moment before.
 * @typedef {{turns: number[], cells: number[], processes: number[], splits: number[], ends: number[]}} Overview
 */

const WORDS = MarsMoment.size / 4;
const sum = (/** @type {Iterable<number>} */ numbers) => [...numbers].reduce((total, one) => total + one, 0);

/** Takes samples while turns are played: at the first place, after each step of turns from there, and at the last. */
export class Sampler {
  /** @type {Overview} */
  overview = { turns: [], cells: [], processes: [], splits: [], ends: [] };

  /**
   * @param {Place} place
   * @param {number} step the number of turns between two moments
   */
  constructor(place, step) {
    const { turns, cells, processes, splits, ends } = this.overview;
    this.first = place.turn;
    this.step = step;
    turns.push(place.turn);
    cells.push(...place.columns.owned);
    processes.push(...place.processes);
    splits.push(0);
    ends.push(0);
  }

  /**
   * Plays up to a turn, or to the end.
   * @param {import("../engine/mars.js").Mars} mars
   * @param {Place} place
   * @param {number} turn
   */
  playTo(mars, place, turn) {
    while (place.turn < turn && !place.battle.over) {
      // How many turns of a step are already played, because it was cut by an edit, and how many turns are left.
      const [late, left] = [(place.turn - this.first) % this.step, turn - place.turn];
      const isWhole = late === 0 && left >= this.step;
      const [step, count] = isWhole ? [this.step, Math.floor(left / this.step)] : [Math.min(this.step - late, left), 1];
      const before = sum(place.processes);
      this.#take(mars.moments(place, step, count, [EVENTS.splits]), place.battle.warriors, before);
    }
  }

  /**
   * Appends moments to the overview.
   * @param {Uint32Array} rows words of MarsMoment
   * @param {number} warriors
   * @param {number} before the number of processes at the moment before the rows
   */
  #take(rows, warriors, before) {
    const { turns, cells, processes, splits, ends } = this.overview;
    for (let at = 0, count = before; at < rows.length; at += WORDS) {
      const own = (/** @type {number} */ offset) => rows.subarray(at + offset / 4, at + offset / 4 + warriors);
      const [split, now] = [rows[at + MarsMoment.found / 4], sum(own(MarsMoment.processes))];
      const turn = rows[at + MarsMoment.turns / 4];
      // After the end all rows are the same.
      if (turn === turns[turns.length - 1]) break;
      turns.push(turn);
      cells.push(...own(MarsMoment.cells));
      processes.push(...own(MarsMoment.processes));
      splits.push(split);
      ends.push(count + split - now);
      count = now;
    }
  }
}

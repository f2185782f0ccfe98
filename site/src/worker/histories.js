/** The histories of a battle's futures, of which the last used ones are kept, and of one round of the match. */
import { History } from "../battle/history.js";

/** @typedef {import("../model/fight.js").Made} Made */
/**
 * A future: its edits, its last turn, the index of the future from which it branched, and the index of its own branch
 * that was shown last; -1 stands for none.
 * @typedef {{edits: Made[], end: number, parent: number, visited: number}} Future
 */

/** The maximum number of histories that are kept. */
const MAX_KEPT = 4;

export class Histories {
  /** @type {Map<number, History>} */
  #kept;
  /** @type {Future[]} */
  futures;
  /** @type {History | null} */
  #round = null;

  /**
   * Begins with a future without edits, and another one for each edit.
   * @param {History} first
   * @param {Made[]} edits
   */
  constructor(first, edits) {
    this.#kept = new Map([[0, first]]);
    this.futures = [[], ...edits].map((_, at) => ({
      edits: edits.slice(0, at),
      end: first.end,
      parent: at - 1,
      visited: -1,
    }));
  }

  /**
   * Returns the history of a future, which is played again if it is no longer kept.
   * @param {number} future
   * @returns {History}
   */
  of(future) {
    let found = this.#kept.get(future);
    if (!found) {
      const { edits, parent } = this.futures[future];
      const { turn, edit } = edits[edits.length - 1];
      found = this.of(parent).edited(turn, edit);
      this.futures[future].end = found.end;
    }
    this.#kept.delete(future);
    this.#kept.set(future, found);
    const oldest = [...this.#kept.keys()].find((one) => one !== 0);
    if (this.#kept.size > MAX_KEPT && oldest !== undefined) this.#kept.delete(oldest);
    return found;
  }

  /**
   * Returns the history of a future, to which redo leads from now on.
   * @param {number} future
   */
  visit(future) {
    for (let at = future; at > 0; at = this.futures[at].parent) this.futures[this.futures[at].parent].visited = at;
    return this.of(future);
  }

  /**
   * Edits a future after a turn, and returns the future that this makes. The edits after that turn belong to the future
   * that is left.
   * @param {number} future
   * @param {number} turn
   * @param {import("../model/fight.js").Edit} edit
   */
  edit(future, turn, edit) {
    let parent = future;
    while (this.futures[parent].edits.some((one) => one.turn > turn)) parent = this.futures[parent].parent;
    const edits = [...this.futures[parent].edits, { turn, edit }];
    const there = this.futures.findIndex((other) => JSON.stringify(other.edits) === JSON.stringify(edits));
    if (there >= 0) return there;
    const edited = this.of(parent).edited(turn, edit);
    const made = this.futures.push({ edits, end: edited.end, parent, visited: -1 }) - 1;
    this.#kept.set(made, edited);
    return made;
  }

  /**
   * Returns the history of a round of the match, without edits. The one that was returned last is kept.
   * @param {number} round
   */
  round(round) {
    if (this.#round?.match.round !== round) {
      const { mars, match } = this.of(0);
      this.#round = History.fight(mars, { ...match, round });
    }
    return this.#round;
  }

  /** The number of bytes of the marks that are kept. */
  get bytes() {
    const runs = new Set([...this.#kept.values()].flatMap(({ segments }) => segments.map(({ run }) => run)));
    const places = [...runs].flatMap(({ marks, ending }) => [...marks, ending]);
    return places.reduce((sum, { bytes }) => sum + bytes, 0);
  }
}

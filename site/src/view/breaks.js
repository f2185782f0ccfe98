/** Breakpoints: conditions on which playing stops. */

/** @typedef {import("../battle/conditions.js").Condition} Condition */

/**
 * Returns the condition that a cell is executed next.
 * @param {number} address
 * @returns {Condition}
 */
export const atCell = (address) => ({ word: "at", cells: [address, address] });

export class Breaks {
  /** @type {Condition[]} */
  all = [];
  /**
   * The number of each breakpoint, which stays the same when others are deleted.
   * @type {number[]}
   */
  numbers = [];

  /** @param {() => void} changed */
  constructor(changed) {
    this.changed = changed;
  }

  /**
   * Replaces all breakpoints. Those that stay keep their numbers.
   * @param {Condition[]} breaks
   */
  set(breaks) {
    const known = new Map(this.all.map((one, at) => [one, this.numbers[at]]));
    let next = Math.max(-1, ...breaks.map((one) => known.get(one) ?? -1)) + 1;
    this.numbers = breaks.map((one) => known.get(one) ?? next++);
    this.all = breaks;
    this.changed();
  }

  /**
   * Sets a breakpoint, or removes it if an equal one is set.
   * @param {Condition} condition
   */
  toggle(condition) {
    const others = this.all.filter((one) => !isAlike(one, condition));
    this.set(others.length < this.all.length ? others : [...this.all, condition]);
  }

  /** @param {Condition} condition */
  has(condition) {
    return this.all.some((one) => isAlike(one, condition));
  }
}

/**
 * @param {Condition} one
 * @param {Condition} other
 */
const isAlike = (one, other) => JSON.stringify(one) === JSON.stringify(other);

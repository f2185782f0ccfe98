/** Which warriors have processes on a cell. */
import { number } from "../words/battle.js";

/** @typedef {import("../worker/desk.js").View} View */
/** @typedef {{who: number, many: number}[]} Standing warriors, and the number of their processes */

/**
 * Returns the warriors that have processes on each wanted cell, by its address. Cells without processes are left out.
 * @param {View} view
 * @param {(address: number) => boolean} isWanted
 */
export function standingOn({ queues, processes }, isWanted) {
  /** @type {Map<number, Standing>} */
  const found = new Map();
  let first = 0;
  processes.forEach((count, who) => {
    for (const address of queues.subarray(first, first + count)) {
      if (!isWanted(address)) continue;
      const here = found.get(address) ?? [];
      const own = here.find((one) => one.who === who);
      if (own) own.many++;
      else found.set(address, [...here, { who, many: 1 }]);
    }
    first += count;
  });
  return found;
}

/** @param {number} many */
export const timesWords = (many) => (many > 1 ? `×${number(many)}` : "");

/**
 * @param {Standing} standing
 * @param {string[]} names
 */
export const standingNames = (standing, names) =>
  standing.map(({ who, many }) => `${names[who]} ${timesWords(many)}`.trim()).join(", ");

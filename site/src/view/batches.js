/** The order and the batches in which many fights are fought: first some that are far apart. */

/**
 * @template T
 * @param {T[]} all
 * @param {number} size
 */
export const inBatches = (all, size) =>
  Array.from({ length: Math.ceil(all.length / size) }, (_, at) => all.slice(size * at, size * (at + 1)));

/**
 * Returns the numbers from 0 to `count` less 1, first some that are far apart, then those between them.
 * @param {number} count
 */
export function spread(count) {
  /** @type {number[]} */
  const found = [];
  const bits = Math.ceil(Math.log2(Math.max(2, count)));
  for (let index = 0; index < 2 ** bits; index++) {
    let reversed = 0;
    for (let bit = 0; bit < bits; bit++) if (index & (1 << bit)) reversed |= 1 << (bits - 1 - bit);
    if (reversed < count) found.push(reversed);
  }
  return found;
}

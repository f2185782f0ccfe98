/** In how many columns the cells of a core are shown. */

/** The least size of cells in pixels that show their instruction. */
export const READABLE = 46;
/** The greatest ratio of the sides of a cell, which need not be equal, so that the cells fill the canvas. */
const OBLONG = 1.16;
/** How much better a number of columns is if it fills the last row. */
const FULL = 1.08;

/**
 * Returns the number of columns with which cells are largest, preferably a divisor of the core size, and the sides of a
 * cell. Sides may be fractions, so that cells differ by a pixel and fill the canvas, unless they have room for text.
 * @param {number} size of the core
 * @param {number} width in pixels of the screen
 * @param {number} height
 */
export function bestColumns(size, width, height) {
  let best = { columns: Math.max(1, Math.floor(width)), x: 1, y: 1, worth: 0 };
  const [minimum, maximum] = [Math.sqrt(size) / 3, Math.sqrt(size) * 3];
  for (let columns = Math.max(1, Math.floor(minimum)); columns <= Math.min(size, Math.ceil(maximum)); columns++) {
    const [across, down] = [width / columns, height / Math.ceil(size / columns)];
    const room = Math.min(across, down);
    const isText = room >= READABLE * devicePixelRatio;
    const most = isText ? Math.floor(room) : room < 1 ? room : room * OBLONG;
    const [x, y] = [Math.min(across, most), Math.min(down, most)];
    const worth = x * y * Math.sqrt(Math.min(x / y, y / x)) * (size % columns === 0 ? FULL : 1);
    if (worth > best.worth) best = { columns, x, y, worth };
  }
  return best;
}

/** The curve of a sweep: the points per round of each value. */
import { FONT, drawScale } from "./curves.js";
import { colourOf } from "./dom.js";

/** @typedef {import("../engine/mars.js").Row} Row */
/** @typedef {{value: number, row: Row | null, left: number}} Result `left` counts the matches that are not done */

/** In pixels: the height of the curve with all around it, of the scale below it, and of the margin above it. */
const HEIGHT = 190;
const FOOT = 18;
const TOP = 14;

/** @param {Result} result */
export const meanOf = ({ row }) => (row ? row.points / (row.wins + row.ties + row.losses) : 0);

/**
 * Draws a bar for each result, and a scale of the values.
 * @param {HTMLCanvasElement} canvas
 * @param {Result[]} results
 * @param {{best: Result | undefined, most: number, current: number}} marks the best result, the maximum number of
 *   points of a round, and the value that the source has
 */
export function drawSweep(canvas, results, { best, most, current }) {
  const [width, ratio] = [canvas.clientWidth, devicePixelRatio];
  if (!width) return;
  canvas.width = width * ratio;
  canvas.height = HEIGHT * ratio;
  const context = /** @type {CanvasRenderingContext2D} */ (canvas.getContext("2d"));
  const [ink, line, top] = ["--ink", "--win", "--meta"].map(colourOf);
  context.scale(ratio, ratio);
  const x = (/** @type {number} */ index) => ((index + 0.5) / results.length) * width;
  const y = (/** @type {number} */ mean) => HEIGHT - FOOT - (mean / most) * (HEIGHT - FOOT - TOP);
  context.font = FONT;
  context.fillStyle = ink;
  for (const share of [0, 0.5, 1]) {
    context.globalAlpha = 0.16;
    context.fillRect(0, y(share * most), width, 1);
    context.globalAlpha = 0.7;
    context.fillText((share * most).toFixed(1), 2, y(share * most) - 3);
  }
  context.globalAlpha = 1;
  const here = results.findIndex(({ value }) => value === current);
  if (here >= 0) context.fillRect(Math.round(x(here)), TOP, 1, HEIGHT - FOOT - TOP);
  const wide = Math.max(1.5, width / results.length - 0.5);
  results.forEach((result, index) => {
    if (!result.row || result.left) return;
    context.fillStyle = result === best ? top : line;
    const height = y(meanOf(result));
    context.globalAlpha = 0.28;
    context.fillRect(x(index) - wide / 2, height, wide, HEIGHT - FOOT - height);
    context.globalAlpha = 1;
    context.fillRect(x(index) - wide / 2, height - 1, wide, 2.5);
  });
  if (!results.length) return;
  const [first, last] = [results[0].value, results[results.length - 1].value];
  const across = (/** @type {number} */ value) =>
    x(((value - first) / Math.max(1, last - first)) * (results.length - 1));
  context.fillStyle = ink;
  context.globalAlpha = 0.7;
  drawScale(context, { first, last, width, bottom: HEIGHT - FOOT, x: across });
}

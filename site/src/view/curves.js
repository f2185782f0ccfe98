/** The battle as curves over time: above, the cells of each warrior, stacked; below, its processes. */
import { number } from "../words/battle.js";
import { clamp } from "./dom.js";

/**
 * What the curves of a battle are drawn with: `x` returns where a turn is; `middle` and `bottom` are the feet of the
 * curves of cells and of processes.
 * @typedef {object} Drawing
 * @property {CanvasRenderingContext2D} context
 * @property {import("./palette.js").Palette} palette
 * @property {number} warriors
 * @property {number} width
 * @property {number} middle
 * @property {number} bottom
 * @property {(turn: number) => number} x
 */
/** @typedef {Drawing & {overview: import("../battle/overview.js").Overview}} Film */

export const FONT = "11px system-ui, sans-serif";
const GROUND = "#0e1217";

/**
 * Draws the round values from `first` to `last` below a curve, as many as there is room for.
 * @param {CanvasRenderingContext2D} context
 * @param {{first: number, last: number, width: number, bottom: number, x: (value: number) => number}} scale
 */
export function drawScale(context, { first, last, width, bottom, x }) {
  const step = roundStep((last - first) / (width / 90));
  context.font = FONT;
  for (let value = Math.ceil(first / step) * step; value <= last; value += step) {
    const at = Math.round(x(value));
    const room = context.measureText(number(value)).width / 2 + 4;
    context.fillRect(at, bottom, 1, 4);
    context.textAlign = at < room ? "left" : at > width - room ? "right" : "center";
    // Zero has no sign.
    context.fillText(number(value || 0), clamp(at, 5, width - 5), bottom + 14);
  }
}

/**
 * Returns the least of 1, 2, 5, 10, 20, 50 and so on that is not below a minimum.
 * @param {number} minimum
 */
function roundStep(minimum) {
  const power = 10 ** Math.floor(Math.log10(Math.max(1, minimum)));
  return [1, 2, 5, 10].map((times) => times * power).find((value) => value >= minimum) ?? power;
}

/**
 * Draws both curves, and between them splits and ends of processes.
 * @param {Film} drawing
 * @param {{count: number}[]} peaks the most processes of each warrior, which samples may miss
 */
export function drawCurves(drawing, peaks) {
  const maxCells = drawCells(drawing);
  drawTicks(drawing);
  const maxProcesses = Math.max(drawProcesses(drawing), ...peaks.map(({ count }) => count));
  drawLegend(drawing, maxCells, maxProcesses);
}

/**
 * Draws the numbers of cells of the warriors, stacked. Returns their largest sum at a moment, at least 1.
 * @param {Film} drawing
 */
function drawCells({ context, palette, overview: { turns, cells }, warriors, middle, x }) {
  const below = new Float64Array(turns.length);
  const row = (/** @type {number} */ at) => cells.slice(at * warriors, (at + 1) * warriors);
  const sums = turns.map((_, at) => row(at).reduce((sum, count) => sum + count, 0));
  const maximum = Math.max(1, ...sums);
  const y = (/** @type {number} */ at) => middle - 2 - (below[at] / maximum) * (middle - 8);
  for (let who = 0; who < warriors; who++) {
    context.beginPath();
    turns.forEach((turn, at) => context.lineTo(x(turn), y(at)));
    for (let at = turns.length - 1; at >= 0; at--) {
      below[at] += cells[at * warriors + who];
      context.lineTo(x(turns[at]), y(at));
    }
    context.fillStyle = palette.text[who];
    context.globalAlpha = 0.62;
    context.fill();
    context.globalAlpha = 1;
  }
  return maximum;
}

/**
 * Draws the numbers of processes of the warriors. Returns the largest one, at least 1.
 * @param {Film} drawing
 */
function drawProcesses({ context, palette, overview: { turns, processes }, warriors, middle, bottom, x }) {
  const maximum = processes.reduce((one, other) => Math.max(one, other), 1);
  for (let who = 0; who < warriors; who++) {
    // Curves are shifted, so that equal ones do not cover each other.
    const apart = Math.min(2, 12 / warriors) * who;
    context.beginPath();
    turns.forEach((turn, at) => {
      const share = Math.sqrt(processes[at * warriors + who] / maximum);
      context.lineTo(x(turn), bottom - 2 - share * (bottom - middle - 14) - apart);
    });
    context.strokeStyle = palette.text[who];
    context.lineWidth = 1.75;
    context.lineJoin = "round";
    context.stroke();
  }
  return maximum;
}

/**
 * Draws splits and ends of processes, bright if there were many.
 * @param {Film} drawing
 */
function drawTicks({ context, overview: { turns, splits, ends }, middle, x }) {
  const maximum = [...splits, ...ends].reduce((one, other) => Math.max(one, other), 1);
  for (let at = 1; at < turns.length; at++) {
    const [from, to] = [x(turns[at - 1]), x(turns[at])];
    const wide = Math.max(1, to - from);
    context.fillStyle = `rgba(255,255,255,${0.18 + (0.5 * splits[at]) / maximum})`;
    if (splits[at]) context.fillRect(to - wide, middle, wide, 3);
    context.fillStyle = `rgba(255,120,110,${0.25 + (0.6 * ends[at]) / maximum})`;
    if (ends[at]) context.fillRect(to - wide, middle + 4, wide, 3);
  }
}

/**
 * @param {Film} drawing
 * @param {number} maxCells
 * @param {number} maxProcesses
 */
function drawLegend({ context, middle }, maxCells, maxProcesses) {
  context.font = FONT;
  context.textAlign = "left";
  const texts = /** @type {const} */ ([
    [`cells, up to ${number(maxCells)}`, 13],
    [`processes, up to ${number(maxProcesses)}`, middle + 17],
  ]);
  for (const [text, y] of texts) {
    context.fillStyle = GROUND;
    context.fillRect(8, y - 11, context.measureText(text).width + 8, 15);
    context.fillStyle = "#aab4c0";
    context.fillText(text, 12, y);
  }
}

/**
 * The core on a canvas: a cell is some pixels in the colour of the warrior that wrote it last, which is strong if the
 * write is recent, and nearly white if a process is there. Large cells show their instruction.
 */
import { MODES, MODIFIERS, NOBODY, OPCODES, isEmpty, readCell, signed } from "../model/cells.js";
import { drawArrow } from "./arrow.js";
import { READABLE, bestColumns } from "./columns.js";
import { BETWEEN, DARK, SHADES } from "./palette.js";

/** @typedef {import("../worker/desk.js").View} View */
/** @typedef {import("./marks.js").Marks} Marks */
/** @typedef {import("./palette.js").Palette} Palette */

/** The most processes that a warrior with rings can have, and the side in pixels from which cells need no rings. */
const MAX_RINGED = 3;
const LARGE = 16;
const MARGIN = 8;
/** The most cells of a breakpoint that are marked after its first one, and the colour of breakpoints. */
const MAX_BREAKS = 100;
export const BREAK = "#ff4f81";
const RING = new Path2D("M1.2 0A1.2 1.2 0 1 0 -1.2 0A1.2 1.2 0 1 0 1.2 0");
const CROSS = new Path2D("M-1 -1L1 1M1 -1L-1 1");
const SQUARE = new Path2D("M-1 -1H1V1H-1z");
const FONT = 'ui-monospace, Consolas, "DejaVu Sans Mono", monospace';

export class Core {
  size = 1;
  columns = 1;
  rows = 1;
  /** How strongly cells glow, 0 to 1. */
  shine = 0;
  /** The side of a cell in pixels of the canvas, the side without the gap to the next cell, and that gap. */
  cell = 1;
  #inner = 1;
  #gap = 0;
  /** Whether cells are large enough for their texts. */
  #isReadable = false;
  /** Where columns and rows begin and end on the canvas. */
  #xs = new Uint32Array(2);
  #ys = new Uint32Array(2);
  /** All of the canvas, so that putting it there clears what was drawn over the cells. Its margin is transparent. */
  #image = new ImageData(1, 1);
  #pixels = new Uint32Array(1);
  #processOwners = new Uint8Array(1);
  /** The glow of the cells, which lies below them: a pixel for each cell, which the browser enlarges and smooths. */
  #glow = document.createElement("canvas");
  #glowImage = new ImageData(1, 1);
  #glows = new Uint32Array(1);

  /** @param {HTMLCanvasElement} canvas */
  constructor(canvas) {
    this.canvas = canvas;
    this.context = /** @type {CanvasRenderingContext2D} */ (canvas.getContext("2d"));
    this.#glow.className = "glow";
    canvas.after(this.#glow);
  }

  /**
   * Fits the cells into the room that the page has for them.
   * @param {number} size of the core
   * @param {number} width in pixels of the page
   * @param {number} height
   */
  fit(size, width, height) {
    const ratio = devicePixelRatio;
    const margin = Math.ceil(MARGIN * ratio);
    const { columns, x, y } = bestColumns(size, width * ratio - 2 * margin, height * ratio - 2 * margin);
    const [rows, unit] = [Math.ceil(size / columns), Math.min(x, y)];
    const ends = (/** @type {number} */ count, /** @type {number} */ side) =>
      Uint32Array.from({ length: count + 1 }, (_, index) => margin + Math.round(index * Math.max(side, 1)));
    this.size = size;
    this.columns = columns;
    this.rows = rows;
    this.cell = Math.max(1, Math.floor(unit));
    this.#gap = unit >= 12 * ratio ? 2 : unit >= 4 ? 1 : 0;
    this.#inner = this.cell - this.#gap;
    this.#isReadable = this.cell >= READABLE * ratio;
    this.#xs = ends(columns, x);
    this.#ys = ends(rows, y);
    const [right, bottom] = [this.#xs[columns], this.#ys[rows]];
    this.canvas.width = right + margin;
    this.canvas.height = bottom + margin;
    // A cell has at least one pixel of the canvas, which is shrunk if the screen has too few pixels for the cells.
    const scale = ratio * Math.max(1, 1 / unit);
    for (const [shown, width, height] of /** @type {const} */ ([
      [this.canvas, this.canvas.width, this.canvas.height],
      [this.#glow, right - margin, bottom - margin],
    ])) {
      shown.style.width = `${width / scale}px`;
      shown.style.height = `${height / scale}px`;
    }
    this.#image = this.context.createImageData(right + margin, bottom + margin);
    this.#pixels = new Uint32Array(this.#image.data.buffer);
    this.#fillGaps(margin);
    this.#processOwners = new Uint8Array(size);
    this.#glow.width = columns;
    this.#glow.height = rows;
    // Small cells are bright enough beside each other.
    this.shine = this.#isReadable ? 0 : Math.min(1, this.cell / (8 * ratio));
    this.#glowImage = new ImageData(columns, rows);
    this.#glows = new Uint32Array(this.#glowImage.data.buffer).fill(DARK);
  }

  /**
   * Fills all but the margin with the colour between cells. Cells are drawn over it later.
   * @param {number} margin
   */
  #fillGaps(margin) {
    const { width, height } = this.#image;
    for (let line = margin; line < height - margin; line++) {
      this.#pixels.fill(BETWEEN, line * width + margin, (line + 1) * width - margin);
    }
  }

  /**
   * @param {View} view
   * @param {Palette} palette
   * @param {number} grain the number of turns that a shade lasts
   * @param {Marks} marks
   */
  draw(view, palette, grain, marks) {
    const { context } = this;
    this.#drawCells(view, palette, grain);
    const few = this.#drawProcesses(view, palette);
    context.putImageData(this.#image, 0, 0);
    context.setTransform(1, 0, 0, 1, 0, 0);
    this.#glow.getContext("2d")?.putImageData(this.#glowImage, 0, 0);
    if (this.#isReadable) this.#drawTexts(view);
    this.#drawMarks(palette, marks, this.cell < LARGE * devicePixelRatio ? few : []);
  }

  /**
   * Draws each row of cells: its first line of pixels, and copies of that line.
   * @param {View} view
   * @param {Palette} palette
   * @param {number} grain
   */
  #drawCells({ owner, written, turn }, { shades, glows }, grain) {
    const [pixels, xs, ys, own, gap] = [this.#pixels, this.#xs, this.#ys, this.#glows, this.#gap];
    const { width } = this.#image;
    for (let row = 0; row < this.rows; row++) {
      const [start, first] = [ys[row] * width, row * this.columns];
      const last = Math.min(this.columns, this.size - first);
      for (let column = 0; column < last; column++) {
        const address = first + column;
        const when = written[address];
        const age = when === 0 ? SHADES : Math.min(SHADES, Math.floor((turn - when) / grain));
        const index = owner[address] * (SHADES + 1) + age;
        const shade = shades[index];
        own[address] = glows[index];
        const to = start + xs[column + 1] - gap;
        for (let x = start + xs[column]; x < to; x++) pixels[x] = shade;
      }
      for (let line = ys[row] + 1; line < ys[row + 1] - gap; line++) {
        pixels.copyWithin(line * width, start, start + width);
      }
    }
  }

  /**
   * Draws a mark on each cell with processes. Returns the processes of warriors that have at most MAX_RINGED.
   * @param {View} view
   * @param {Palette} palette
   */
  #drawProcesses({ queues, processes }, palette) {
    /** @type {{address: number, warrior: number}[]} */
    const few = [];
    const owners = this.#processOwners.fill(0);
    let at = 0;
    processes.forEach((count, warrior) => {
      for (const last = at + count; at < last; at++) {
        const address = queues[at];
        if (owners[address] === warrior + 1) continue;
        if (count <= MAX_RINGED) few.push({ address, warrior });
        this.#drawProcess(address, palette.process[warrior], owners[address] > 0);
        this.#glows[address] = palette.processGlow[warrior];
        owners[address] = warrior + 1;
      }
    });
    return few;
  }

  /**
   * @param {number} address
   * @param {number} colour
   * @param {boolean} isSecond whether another warrior is there: the later one has the lower half
   */
  #drawProcess(address, colour, isSecond) {
    const [pixels, xs, ys] = [this.#pixels, this.#xs, this.#ys];
    const { width } = this.#image;
    const [column, row] = [address % this.columns, Math.floor(address / this.columns)];
    const start = ys[row] * width + xs[column];
    if (this.#isReadable) {
      this.#drawFrame(start, colour, isSecond ? 9 : 0);
      return;
    }
    const edge = this.cell >= 5 ? Math.max(1, Math.floor(this.cell / 6)) : 0;
    const last = xs[column + 1] - xs[column] - this.#gap - edge;
    const tall = ys[row + 1] - ys[row] - this.#gap;
    for (let line = isSecond ? Math.floor(tall / 2) : edge; line < tall - edge; line++) {
      const at = start + line * width;
      for (let x = edge; x < last; x++) pixels[at + x] = colour;
    }
  }

  /**
   * Draws a frame in a cell that has text in it.
   * @param {number} start the first pixel of the cell
   * @param {number} colour
   * @param {number} inset
   */
  #drawFrame(start, colour, inset) {
    const [pixels, inner] = [this.#pixels, this.#inner];
    const { width } = this.#image;
    const thick = Math.max(3, Math.round(inner / 18));
    const last = inner - inset;
    for (let y = inset; y < last; y++) {
      const line = start + y * width;
      const wide = y - inset < thick || last - y <= thick ? last - inset : thick;
      pixels.fill(colour, line + inset, line + inset + wide);
      pixels.fill(colour, line + last - wide, line + last);
    }
  }

  /** @param {View} view */
  #drawTexts({ cells, owner }) {
    const { context, cell, columns, size } = this;
    const unit = Math.max(9 * devicePixelRatio, Math.floor(cell / 6.2));
    context.font = `600 ${unit}px ${FONT}`;
    context.textBaseline = "alphabetic";
    for (let address = 0; address < size; address++) {
      const left = this.#xs[address % columns] + unit * 0.75;
      const top = this.#ys[Math.floor(address / columns)];
      const isFree = owner[address] === NOBODY;
      context.fillStyle = isFree ? "rgba(255,255,255,.45)" : this.#isDark(address) ? "#fff" : "rgba(8,10,13,.92)";
      const { op, modifier, aMode, bMode, a, b } = readCell(cells, address);
      if (isFree && isEmpty(cells, address)) context.fillText("·", left, top + unit * 1.5);
      else {
        context.fillText(`${OPCODES[op]}.${MODIFIERS[modifier]}`, left, top + unit * 1.75);
        context.fillText(`${MODES[aMode]}${signed(a, size)}`, left, top + unit * 3);
        context.fillText(`${MODES[bMode]}${signed(b, size)}`, left, top + unit * 4.2);
      }
      context.fillText(String(address), left, top + cell - unit * 0.85);
    }
  }

  /**
   * Returns whether a cell is so dark that its text has to be white.
   * @param {number} address
   */
  #isDark(address) {
    const { x, y } = this.#middle(address);
    const at = Math.floor(y) * this.#image.width + Math.floor(x);
    const [red, green, blue] = [0, 8, 16].map((place) => (this.#pixels[at] >> place) & 255);
    // The eye weighs the channels like this; white has the sum 2550.
    return 3 * red + 6 * green + blue < 1200;
  }

  /**
   * @param {Palette} palette
   * @param {Marks} marks
   * @param {{address: number, warrior: number}[]} few the processes that get rings
   */
  #drawMarks(palette, marks, few) {
    const { context } = this;
    const { pinned, hovered, head, reads, warrior, differences, graves } = marks;
    const ratio = devicePixelRatio;
    const radius = Math.max(this.cell, 7 * ratio);
    const around = this.#inner / 2 + ratio;
    this.#drawBreaks(marks.breaks);
    for (const address of differences) this.#mark(address, SQUARE, around, 1.5, "#ff5fd2");
    for (const one of few) this.#mark(one.address, RING, radius, 1.75, palette.mark[one.warrior]);
    for (const grave of graves) {
      this.#mark(grave.address, CROSS, radius, 5, palette.backText);
      this.#mark(grave.address, CROSS, radius, 2.5, palette.mark[grave.warrior]);
    }
    for (const address of reads) this.#mark(address, SQUARE, around, 1.25, palette.mark[warrior]);
    if (head !== null) this.#mark(head, SQUARE, around, 1.25, "rgba(255,255,255,.75)");
    if (pinned !== null) this.#mark(pinned, SQUARE, around + ratio, 2, "#fff");
    if (hovered !== null) this.#mark(hovered, SQUARE, around, 1.25, "#fff");
    for (const { from, to, warrior: who, isFaint } of marks.arrows) {
      const [start, end] = [this.#middle(from), this.#middle(to)];
      drawArrow(context, { start, end, cell: this.cell, isFaint }, palette.mark[who]);
    }
  }

  /** @param {number[][]} breaks */
  #drawBreaks(breaks) {
    for (const [first, last] of breaks) {
      const count = Math.min(MAX_BREAKS, (last - first + this.size) % this.size);
      for (let index = 0; index <= count; index++) {
        this.#mark((first + index) % this.size, SQUARE, this.#inner / 2 + 2 * devicePixelRatio, 2, BREAK);
      }
    }
  }

  /**
   * Draws a shape around the middle of a cell.
   * @param {number} address
   * @param {Path2D} shape
   * @param {number} radius
   * @param {number} width
   * @param {string} colour
   */
  #mark(address, shape, radius, width, colour) {
    const { context } = this;
    const { x, y } = this.#middle(address);
    context.setTransform(radius, 0, 0, radius, x, y);
    context.strokeStyle = colour;
    context.lineWidth = (width * devicePixelRatio) / radius;
    context.stroke(shape);
  }

  /**
   * Returns the middle of a cell in pixels of the canvas.
   * @param {number} address
   */
  #middle(address) {
    const [column, row] = [address % this.columns, Math.floor(address / this.columns)];
    const middle = (/** @type {Uint32Array} */ ends, /** @type {number} */ at) =>
      (ends[at] + ends[at + 1] - this.#gap) / 2;
    return { x: middle(this.#xs, column), y: middle(this.#ys, row) };
  }

  /**
   * Returns the address at a point of the window, or null.
   * @param {{clientX: number, clientY: number}} point
   */
  addressAt({ clientX, clientY }) {
    const box = this.canvas.getBoundingClientRect();
    const scale = this.canvas.width / box.width;
    const at = (/** @type {Uint32Array} */ ends, /** @type {number} */ distance) =>
      ends.findIndex((end) => end > distance * scale) - 1;
    const [column, row] = [at(this.#xs, clientX - box.left), at(this.#ys, clientY - box.top)];
    const address = row * this.columns + column;
    return row >= 0 && column >= 0 && address < this.size ? address : null;
  }

  /**
   * Returns the middle of a cell as a point of the window.
   * @param {number} address
   */
  pointOf(address) {
    const box = this.canvas.getBoundingClientRect();
    const [{ x, y }, scale] = [this.#middle(address), box.width / this.canvas.width];
    return { x: box.left + x * scale, y: box.top + y * scale };
  }
}

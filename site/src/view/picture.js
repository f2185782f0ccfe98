/** The battle as a picture, which the desk paints piece by piece, in the colours of the warriors. */

/** @typedef {import("../worker/picture.js").Frame} Frame */
/** @typedef {import("../worker/picture.js").Piece} Piece */
/** @typedef {import("./palette.js").Palette} Palette */

/** From which brightness on a point is mixed with white. */
const FULL = 0.8;
const LEVELS = 64;

export class Picture {
  /** @type {Frame | null} */
  frame = null;
  canvas = document.createElement("canvas");
  #owner = new Uint8Array(0);
  #light = new Uint8Array(0);
  /** How many columns are painted, and how many of them are drawn. */
  painted = 0;
  #drawn = 0;
  /** @type {Palette | null} */
  #palette = null;
  #request = 0;
  /** The battle and the frame that are painted or being painted, as JSON, or "". */
  #wanted = "";

  /**
   * @param {(frame: Frame, from: number) => Promise<Piece>} ask
   * @param {() => void} changed
   */
  constructor(ask, changed) {
    this.ask = ask;
    this.changed = changed;
  }

  /**
   * Paints a frame, unless it is painted or is being painted. The picture before is shown until the first piece comes.
   * @param {string} battle names the battle
   * @param {Frame} frame
   */
  async paint(battle, frame) {
    const wanted = JSON.stringify([battle, frame]);
    if (wanted === this.#wanted) return;
    this.#wanted = wanted;
    const request = ++this.#request;
    for (let from = 0; from < frame.columns; ) {
      const piece = await this.ask(frame, from).catch(() => null);
      // Another battle may have been opened, or the desk started again.
      if (!piece) this.#wanted = "";
      if (!piece || request !== this.#request) return;
      if (from === 0) this.#begin(frame);
      this.#owner.set(piece.owner, piece.from * frame.rows);
      this.#light.set(piece.light, piece.from * frame.rows);
      from = this.painted = piece.from + piece.owner.length / frame.rows;
      this.changed();
    }
  }

  /** Whether all of it is painted. */
  get isWhole() {
    return this.frame !== null && this.painted === this.frame.columns;
  }

  /** Forgets the picture: it is of another battle. */
  clear() {
    this.frame = null;
    this.#wanted = "";
    this.#request++;
  }

  /** @param {Frame} frame */
  #begin(frame) {
    this.frame = frame;
    this.painted = this.#drawn = 0;
    this.#owner = new Uint8Array(frame.columns * frame.rows);
    this.#light = new Uint8Array(frame.columns * frame.rows);
    this.canvas.width = frame.columns;
    this.canvas.height = frame.rows;
  }

  /**
   * Draws the columns that were painted since the last drawing, or all of them if the palette is another one.
   * @param {Palette} palette
   */
  draw(palette) {
    const { frame } = this;
    if (palette !== this.#palette) this.#drawn = 0;
    this.#palette = palette;
    const columns = this.painted - this.#drawn;
    if (!frame || columns <= 0) return;
    const image = new ImageData(columns, frame.rows);
    const pixels = new Uint32Array(image.data.buffer);
    const levels = levelsOf(palette);
    for (let column = 0; column < columns; column++) {
      const first = (this.#drawn + column) * frame.rows;
      for (let row = 0; row < frame.rows; row++) {
        const level = Math.floor((this.#light[first + row] * (LEVELS - 1)) / 255);
        pixels[row * columns + column] = levels[this.#owner[first + row] * LEVELS + level];
      }
    }
    this.canvas.getContext("2d")?.putImageData(image, this.#drawn, 0);
    this.#drawn = this.painted;
  }
}

/** @type {WeakMap<Palette, Uint32Array>} */
const known = new WeakMap();

/**
 * Returns the colours of each owner, from dark to nearly white.
 * @param {Palette} palette
 */
function levelsOf(palette) {
  const found = known.get(palette);
  if (found) return found;
  const levels = Uint32Array.from({ length: 256 * LEVELS }, (_, index) => {
    const light = (index % LEVELS) / (LEVELS - 1);
    return palette.lit(Math.floor(index / LEVELS), Math.min(1, light / FULL), Math.max(0, light - FULL) / (1 - FULL));
  });
  known.set(palette, levels);
  return levels;
}

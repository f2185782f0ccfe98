/**
 * A battle as a picture: time from left to right, addresses from top to bottom. Each point has the warrior that is
 * strongest in some cells at a moment, and how bright it is: cells that were written recently and processes shine.
 */
import { BY_HAND, NOBODY } from "../model/cells.js";

/** @typedef {import("../battle/history.js").History} History */
/** @typedef {import("../battle/place.js").Place} Place */
/**
 * What is painted: the turns after `first` up to `last`, in columns of equal time.
 * @typedef {{first: number, last: number, columns: number, rows: number}} Frame
 */
/** @typedef {{from: number, owner: Uint8Array, light: Uint8Array}} Piece columns, one after another */

/** The number of columns after which about a third of the shine of a written cell is left. */
const AFTERGLOW = 7;
/** The brightness of a row of old cells, and what it gains if all of them are fresh. */
const OLD = 0.5;
const FRESH = 0.62;
/** The maximum number of processes of a warrior whose processes make cells shine, and how much each one adds. */
const MAX_SHINING = 24;
const SHINE = 1;
/** How a cell fades: its brightness at equal steps of the time until it no longer shines. */
const FADING = Float32Array.from({ length: 65 }, (_, step) => (step < 64 ? Math.exp(-step / 16) : 0));

/** Paints a frame from left to right, over a battle of its own, so that the battle that is shown need not be moved. */
export class Painter {
  /** @type {{run: unknown, place: Place} | null} */
  #cursor = null;
  #next = 0;

  /**
   * @param {History} history
   * @param {Frame} frame
   */
  constructor(history, frame) {
    this.history = history;
    this.frame = frame;
    const { core, order } = history;
    /** The number of owners: the warriors, and edits. */
    this.owners = order.length + 1;
    /** For each row and owner: the number of cells, and the sum of their shine. */
    this.old = new Float64Array(this.owners * frame.rows);
    this.fresh = new Float64Array(this.owners * frame.rows);
    /** The sums of the squares of shine, which make many nearly faded cells less bright than a few fresh ones. */
    this.squares = new Float64Array(this.owners * frame.rows);
    /** For each cell, where the sums of its row begin. */
    this.placeOf = Uint32Array.from({ length: core }, (_, at) => this.owners * Math.floor((at * frame.rows) / core));
    /** The number of cells of a row. */
    this.cells = core / frame.rows;
  }

  /**
   * Paints the next columns, at least one of them, for some milliseconds.
   * @param {number} time in milliseconds
   * @returns {Piece}
   */
  paint(time) {
    const { columns, rows } = this.frame;
    const from = this.#next;
    const until = performance.now() + time;
    const [owner, light] = [new Uint8Array(rows * columns), new Uint8Array(rows * columns)];
    do this.#paintColumn(owner, light, rows * (this.#next - from));
    while (++this.#next < columns && performance.now() < until);
    const size = rows * (this.#next - from);
    return { from, owner: owner.slice(0, size), light: light.slice(0, size) };
  }

  /**
   * Returns the battle after a turn.
   * @param {number} turn
   */
  #placeAt(turn) {
    const { run } = this.history.segment(turn);
    if (this.#cursor?.run !== run) this.#cursor = { run, place: run.mark(turn).copy() };
    const { place } = this.#cursor;
    return place.playTo(this.history.mars, turn);
  }

  /**
   * Paints the next column.
   * @param {Uint8Array} owner
   * @param {Uint8Array} light
   * @param {number} at where the column begins
   */
  #paintColumn(owner, light, at) {
    const { first, last, columns, rows } = this.frame;
    const step = (last - first) / columns;
    const place = this.#placeAt(Math.round(first + step * (this.#next + 1)));
    this.#weigh(place, Math.max(1, step * AFTERGLOW));
    this.#weighProcesses(place);
    const { owners, old, fresh, squares, cells } = this;
    // One fresh cell of many is visible, too.
    const share = Math.max(0.9, 1.4 / cells);
    for (let row = 0; row < rows; row++) {
      owner[at + row] = NOBODY;
      let most = 0;
      for (let who = 0; who < owners; who++) {
        const index = owners * row + who;
        if (old[index] === 0 && fresh[index] === 0) continue;
        const shining = fresh[index] ? (squares[index] / fresh[index]) * (1 - Math.exp(-share * fresh[index])) : 0;
        const bright = OLD * Math.sqrt(old[index] / cells) + FRESH * shining;
        if (bright <= most) continue;
        most = bright;
        owner[at + row] = who < owners - 1 ? who : BY_HAND;
      }
      light[at + row] = 255 * Math.min(1, most);
    }
  }

  /**
   * Weighs the cells of each warrior in each row; cells that were written recently weigh more.
   * @param {Place} place
   * @param {number} fading the number of turns after which about a third of the brightness is left
   */
  #weigh(place, fading) {
    const { turn } = place;
    const { old, fresh, squares, placeOf, owners } = this;
    const oldest = Math.max(0, turn - 4 * fading);
    for (const sums of [old, fresh, squares]) sums.fill(0);
    for (let address = 0; address < placeOf.length; address++) {
      const who = place.owner(address);
      if (who === NOBODY) continue;
      const at = placeOf[address] + (who === BY_HAND ? owners - 1 : who);
      old[at]++;
      const when = place.written(address);
      if (when <= oldest) continue;
      const bright = FADING[Math.floor(((turn - when) * 16) / fading)];
      fresh[at] += bright;
      squares[at] += bright * bright;
    }
  }

  /**
   * Adds the shine of the processes of warriors that have few.
   * @param {Place} place
   */
  #weighProcesses({ battle }) {
    for (let who = 0; who < battle.warriors; who++) {
      const queue = battle.queue(who);
      if (queue.length > MAX_SHINING) continue;
      for (const address of queue) {
        this.fresh[this.placeOf[address] + who] += SHINE;
        this.squares[this.placeOf[address] + who] += SHINE;
      }
    }
  }
}

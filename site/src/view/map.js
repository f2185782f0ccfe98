/** The position map: how a pair fares at every starting distance, in both orders. */
import { number, pluralize } from "../words/battle.js";
import { Stopped } from "../worker/pool.js";
import { inBatches, spread } from "./batches.js";
import { colourOf, element, make, onClick, placeTip, refill, throttle, typed, withCode } from "./dom.js";
import { allOf, errorWords } from "./host.js";

/** @typedef {import("./host.js").Host} Host */
/** @typedef {import("./host.js").MatchTerms} MatchTerms */
/** @typedef {import("./host.js").Source} Source */

/** The number of distances of a job, and the size of their squares in pixels. */
const BATCH = 32;
const SIDE = 8;
/** Outcomes for the source in the editor, and the colours that they have. */
const WORDS = ["…", "loses", "wins", "ties"];
const COLOURS = ["--line", "--loss", "--win", "--tie"];

export class PositionMap {
  /** @type {Source[]} */
  #pair = [];
  /** @type {string[]} */
  #names = [];
  /** @type {MatchTerms | null} */
  #terms = null;
  /** For each distance, the outcome if the own warrior is first, and if it is second, as indices of WORDS. */
  outcomes = new Uint8Array(0);
  #first = 0;
  #columns = 1;
  #run = 0;
  #note = "";
  #later = throttle(() => this.#draw(), 80);

  /** @param {Host} host */
  constructor(host) {
    this.host = host;
    onClick("map-stop", () => this.stop());
    const canvas = element("map-squares");
    canvas.onpointermove = (event) => this.#point(event);
    canvas.onpointerleave = () => (element("tip").hidden = true);
    canvas.onclick = (event) => this.#watch(event);
    new ResizeObserver(() => this.#draw()).observe(canvas);
  }

  /**
   * Fights a pair at every distance.
   * @param {Source[]} pair
   * @param {string[]} names
   */
  async open(pair, names) {
    const { pool, terms, meanings } = this.host;
    const run = ++this.#run;
    pool.drop("map");
    const { settings } = (this.#terms = terms());
    [this.#pair, this.#names, this.#note] = [pair, names, ""];
    this.#first = settings.distance;
    const count = Math.max(0, settings.core - 2 * settings.distance + 1);
    this.outcomes = new Uint8Array(2 * count);
    element("map").hidden = false;
    this.#draw();
    element("map").scrollIntoView({ block: "nearest" });
    try {
      await this.#fight(run);
    } catch (error) {
      if (run === this.#run && !(error instanceof Stopped)) this.#note = errorWords(error, pair, meanings);
    }
    if (run === this.#run) this.#run++;
    this.#draw();
  }

  /** @param {number} run */
  async #fight(run) {
    const [{ pool }, terms, began] = [this.host, this.#terms, performance.now()];
    if (!terms) return;
    const entered = await pool.ask("warriors", [this.#pair, terms], "map", 2);
    const warriors = entered.map(({ warrior }) => warrior);
    const order = spread(this.outcomes.length / 2);
    let done = 0;
    const pending = inBatches(order, BATCH).map(async (batch) => {
      const positions = batch.map((index) => this.#first + index);
      const found = await pool.ask("positions", [warriors, positions, terms], "map", 1);
      if (run !== this.#run) return;
      batch.forEach((index, at) => this.outcomes.set(found.subarray(2 * at, 2 * at + 2), 2 * index));
      done += 2 * batch.length;
      this.#note = `${pluralize(done, "battle")} in ${((performance.now() - began) / 1000).toFixed(1)} s`;
      this.#later();
    });
    await allOf(pending);
  }

  stop() {
    this.#run++;
    this.host.pool.drop("map");
    this.#draw();
  }

  #draw() {
    const [own, other] = this.#names;
    const counts = [0, 1, 2, 3].map((code) => this.outcomes.reduce((sum, one) => sum + Number(one === code), 0));
    element("map-stop").hidden = !this.host.pool.has("map");
    element("map-title").textContent = `${own} against ${other} at every distance`;
    const total = Math.max(1, counts[1] + counts[2] + counts[3]);
    const share = (/** @type {number} */ code) => `${WORDS[code]} ${((100 * counts[code]) / total).toFixed(1)}%`;
    const summary = `${own} ${share(2)}, ${share(3)}, ${share(1)}. `;
    refill(element("map-note"), counts[0] < this.outcomes.length ? summary : "", withCode(this.#note));
    this.#drawSquares();
  }

  #drawSquares() {
    const canvas = typed("map-squares", HTMLCanvasElement);
    const [width, ratio, count] = [canvas.clientWidth, devicePixelRatio, this.outcomes.length / 2];
    if (!width || !count) return;
    this.#columns = Math.max(1, Math.floor(width / SIDE));
    canvas.width = this.#columns * SIDE * ratio;
    canvas.height = Math.ceil(count / this.#columns) * SIDE * ratio;
    const context = /** @type {CanvasRenderingContext2D} */ (canvas.getContext("2d"));
    const colours = COLOURS.map(colourOf);
    context.scale(ratio, ratio);
    this.outcomes.forEach((code, index) => {
      const at = index >> 1;
      const [x, y] = [(at % this.#columns) * SIDE, Math.floor(at / this.#columns) * SIDE];
      context.fillStyle = colours[code];
      // The upper half is the battle in which the own warrior is first.
      context.fillRect(x, y + (index & 1) * (SIDE / 2), SIDE - 1, SIDE / 2 - (index & 1));
    });
  }

  /**
   * Returns the index of the distance at a point of the window, and 0 for the upper half of its square or 1 for the
   * lower one; null if no square is there.
   * @param {MouseEvent} event
   */
  #at({ clientX, clientY }) {
    const { left, top, width } = element("map-squares").getBoundingClientRect();
    const side = width / this.#columns;
    const [column, row] = [Math.floor((clientX - left) / side), Math.floor((clientY - top) / side)];
    const index = row * this.#columns + column;
    const half = (clientY - top) / side - row < 0.5 ? 0 : 1;
    return index >= 0 && 2 * index < this.outcomes.length ? { index, half } : null;
  }

  /** @param {PointerEvent} event */
  #point(event) {
    const found = this.#at(event);
    const tip = element("tip");
    tip.hidden = !found;
    if (!found) return;
    const [own, other] = this.#names;
    const lines = [own, other].map((first, half) => {
      const how = `${own} ${WORDS[this.outcomes[2 * found.index + half]]}`;
      return make("p", { className: half === found.half ? "" : "soft" }, `${first} first: ${how}`);
    });
    const head = make("p", {}, make("b", {}, `Distance ${number(this.#first + found.index)}`), " · click to watch");
    refill(tip, head, ...lines);
    placeTip(tip, { x: event.clientX, y: event.clientY });
  }

  /** @param {MouseEvent} event */
  #watch(event) {
    const [found, terms] = [this.#at(event), this.#terms];
    if (!found || !terms) return;
    element("tip").hidden = true;
    const position = this.#first + found.index;
    return this.host.fight(this.#pair, { ...terms, rounds: Math.max(2, terms.rounds), position, round: found.half });
  }
}

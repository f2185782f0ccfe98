/** Tuning: fights the source in the editor, with many values of one of its numbers, against the bench's opponents. */
import { number, pluralize } from "../words/battle.js";
import { isLead } from "../words/comparison.js";
import { readSource } from "../words/source.js";
import { Stopped } from "../worker/pool.js";
import { inBatches, spread } from "./batches.js";
import { clamp, element, make, onClick, placeTip, refill, throttle, typed, withCode } from "./dom.js";
import { allOf, errorWords, sumOf } from "./host.js";
import { drawSweep, meanOf } from "./sweep.js";

/** @typedef {import("../engine/warrior.js").Warrior} Warrior */
/** @typedef {import("./sweep.js").Result} Result */

/** The number of values at first, and at most. */
const AROUND = 400;
const MAX_VALUES = 20_000;
/** The number of values of a job, and of each of the first jobs, which are small so that values appear soon. */
const BATCH = 8;
const FIRST_BATCHES = [1, 1, 2, 4];
/** The urgency of the jobs of a sweep: all other jobs take less time, and come first. */
const LAST = -1;
/** The mark of the number in its document. */
const MARK = { className: "tuned", inclusiveRight: true, clearWhenEmpty: false };
/** A number, with its sign unless that is a minus between two operands. */
const NUMBER = /(?<![\w&])(?:(?<=(?:^|[^\w)\s])\s*)-)?\d+(?!\w)/g;

export class Tune {
  /** @type {import("codemirror").Mark | null} */
  #mark = null;
  /** @type {Result[]} */
  results = [];
  /**
   * The result of the value that the source had.
   * @type {Result | null}
   */
  #start = null;
  /** What a loss, a win and a tie are worth. */
  #worth = [0, 1, 1];
  #run = 0;
  #note = "";
  #later = throttle(() => this.#draw(), 60);

  /**
   * @param {import("./host.js").Host} host
   * @param {() => import("./host.js").Source[]} opponents
   * @param {() => void} show shows the bench
   */
  constructor(host, opponents, show) {
    this.host = host;
    this.opponents = opponents;
    this.show = show;
    const { mirror } = host.shelf.editor;
    mirror.on("cursorActivity", () => this.#offer());
    // A tap moves the caret before it gives the focus.
    mirror.on("focus", () => setTimeout(() => this.#offer()));
    mirror.on("scroll", () => (element("tune-here").hidden = true));
    mirror.on("blur", () => (element("tune-here").hidden = true));
    // The editor keeps the focus, and so its place, until the button is released.
    element("tune-here").onmousedown = (event) => event.preventDefault();
    onClick("tune-here", () => this.begin());
    onClick("tune-run", () => this.sweep());
    onClick("tune-stop", () => this.stop());
    onClick("tune-best", () => this.#take(this.#lead?.best.value));
    const canvas = element("tune-curve");
    canvas.onpointermove = (event) => this.#point(event);
    canvas.onpointerleave = () => (element("tip").hidden = true);
    canvas.onclick = (event) => this.#take(this.#resultAt(event)?.value);
    new ResizeObserver(() => this.#draw()).observe(canvas);
  }

  /** Returns the number at the caret, with its sign, or the only number of the EQU that is named there, or null. */
  #numberAt() {
    const { mirror } = this.host.shelf.editor;
    const { line, ch } = mirror.getCursor();
    const code = mirror.getLine(line).split(";")[0];
    const here = numbersIn(code, line).find(({ from, to }) => from <= ch && ch <= to);
    if (here) return here;
    const name = (/\w*$/.exec(code.slice(0, ch))?.[0] ?? "") + (/^\w*/.exec(code.slice(ch))?.[0] ?? "");
    const equate = readSource(mirror.getValue()).equates.get(name);
    const [only, ...others] = equate ? numbersIn(equate.text.split(";")[0], equate.number - 1) : [];
    return only && others.length === 0 ? only : null;
  }

  /** Offers to tune the number at the caret. */
  #offer() {
    const found = this.#numberAt();
    const { mirror } = this.host.shelf.editor;
    const button = element("tune-here");
    button.hidden = !found || !mirror.hasFocus() || mirror.getSelection() !== "";
    if (!found || button.hidden) return;
    const { left, top } = mirror.charCoords(mirror.getCursor(), "window");
    button.textContent = `Tune ${found.text}`;
    button.style.left = `${left + 10}px`;
    button.style.top = `${top - 30}px`;
  }

  /** Tunes the number at the caret. */
  begin() {
    const found = this.#numberAt();
    const { shelf, terms } = this.host;
    if (!found || !shelf.shown) return;
    this.stop();
    this.#mark?.clear();
    const [from, to] = [found.from, found.to].map((ch) => ({ line: found.line, ch }));
    this.#mark = shelf.shown.doc.markText(from, to, MARK);
    this.results = [];
    this.#start = null;
    this.#note = "";
    const { core } = terms().settings;
    const first = clamp(Number(found.text) - AROUND / 2, -core, core - AROUND);
    for (const [id, value] of Object.entries({ from: first, to: first + AROUND - 1, step: 1 })) {
      typed(`tune-${id}`, HTMLInputElement).value = String(value);
    }
    element("tune-here").hidden = true;
    element("tune").hidden = false;
    this.show();
    element("tune").scrollIntoView({ block: "nearest" });
    return this.sweep();
  }

  /** The values that the fields give, the smallest first. Throws an Error if the fields are not valid. */
  get #values() {
    const [first, last, step] = ["from", "to", "step"].map((id) => Number(typed(`tune-${id}`, HTMLInputElement).value));
    const count = Math.floor((last - first) / step) + 1;
    if (!(step > 0) || !(count >= 1) || count > MAX_VALUES || !Number.isInteger(first) || !Number.isInteger(step)) {
      throw new Error(`Expected whole numbers, and at most ${number(MAX_VALUES)} values.`);
    }
    return Array.from({ length: count }, (_, index) => first + step * index);
  }

  /** Fights with each value. */
  async sweep() {
    const { pool, shelf, terms, meanings } = this.host;
    const range = this.#mark?.find();
    const own = shelf.current;
    if (!own || !range) return;
    const run = ++this.#run;
    pool.drop("tune");
    try {
      const values = this.#values;
      const opponents = this.opponents();
      const result = (/** @type {number} */ value) => ({ value, row: null, left: opponents.length });
      this.results = values.map(result);
      this.#start = this.results.find(({ value }) => value === this.#current) ?? result(this.#current);
      const lines = own.text.split("\n");
      const text = lines[range.from.line];
      const before = [...lines.slice(0, range.from.line), text.slice(0, range.from.ch)].join("\n");
      const after = [text.slice(range.to.ch), ...lines.slice(range.to.line + 1)].join("\n");
      await this.#fight({ before, after }, opponents, terms(), run);
    } catch (error) {
      if (run === this.#run && !(error instanceof Stopped)) this.#note = errorWords(error, [own], meanings);
    }
    if (run === this.#run) this.#run++;
    this.#draw();
  }

  /**
   * Fights each value with each opponent that can be assembled, in jobs.
   * @param {{before: string, after: string}} source the text around the number
   * @param {import("./host.js").Source[]} opponents
   * @param {import("./host.js").MatchTerms} terms
   * @param {number} run
   */
  async #fight(source, opponents, terms, run) {
    const { pool } = this.host;
    const began = performance.now();
    const entered = await Promise.allSettled(
      opponents.map((opponent) => pool.ask("warriors", [[opponent], terms], "tune", 2)),
    );
    // A source with an error is no opponent.
    const warriors = entered.flatMap((one) => (one.status === "fulfilled" ? one.value[0].warrior : []));
    if (!warriors.length) throw new Error("There is no opponent.");
    const far = spread(this.results.length).map((index) => this.results[index]);
    const order = [...new Set([...(this.#start ? [this.#start] : []), ...far])];
    order.forEach((result) => (result.left = warriors.length));
    const all = pluralize(order.length * warriors.length * terms.rounds, "round");
    const few = FIRST_BATCHES.map((size) => order.splice(0, size)).filter(({ length }) => length);
    const batches = [...few, ...inBatches(order, BATCH)];
    let done = 0;
    const fight = async (/** @type {Result[]} */ batch, /** @type {Warrior} */ warrior) => {
      const values = batch.map(({ value }) => value);
      const { rows, worth } = await pool.ask("sweep", [source, values, warrior, terms], "tune", LAST);
      if (run !== this.#run) return;
      this.#worth = worth;
      batch.forEach((result, index) => add(result, rows[index]));
      done += batch.length * terms.rounds;
      this.#note = `${number(done)} of ${all} in ${((performance.now() - began) / 1000).toFixed(1)} s`;
      this.#later();
    };
    await allOf(batches.flatMap((batch) => warriors.map((warrior) => fight(batch, warrior))));
  }

  stop() {
    this.#run++;
    this.host.pool.drop("tune");
    this.#draw();
  }

  /**
   * The result with the most points, of the values that have fought all opponents.
   * @returns {Result | undefined}
   */
  get #bestResult() {
    const points = (/** @type {Result} */ { row }) => row?.points ?? -Infinity;
    const [first, ...others] = this.results.filter(({ row, left }) => row && left === 0);
    return others.reduce((best, one) => (points(one) > points(best) ? one : best), first);
  }

  /** The best result, and that of the source's own value; null unless both are known and the best one is better. */
  get #lead() {
    const best = this.#bestResult;
    const own = [...this.results, this.#start].find((one) => one?.value === this.#current);
    const isBetter = best && own?.left === 0 && best.row && !(own.row && own.row.points >= best.row.points);
    return isBetter ? { best, own } : null;
  }

  /** Says what the best value is worth, and whether it may lead by chance; "" if no value leads. */
  get #leadWords() {
    const { best, own } = this.#lead ?? {};
    if (!best?.row || !own) return "";
    const taken = `Take ${number(best.value)}: ${meanOf(best).toFixed(2)} points`;
    if (!own.row) return taken;
    const [one, other] = [best.row, own.row].map((row) => ({ ...row, values: this.#worth }));
    const chance = isLead(one, other, this.results.length) ? "" : "; may be chance";
    return `${taken}, ${number(own.value)} has ${meanOf(own).toFixed(2)}${chance}`;
  }

  /**
   * Writes a value in place of the number.
   * @param {number | undefined} value
   */
  #take(value) {
    const range = this.#mark?.find();
    const { shown, editor } = this.host.shelf;
    if (value === undefined || !range || !shown) return;
    const text = String(value);
    shown.doc.replaceRange(text, range.from, range.to);
    // The mark has to cover the number that replaces the old one.
    this.#mark?.clear();
    const to = { ...range.from, ch: range.from.ch + text.length };
    this.#mark = shown.doc.markText(range.from, to, MARK);
    editor.mirror.scrollIntoView(range.from, 60);
    this.#draw();
  }

  /** The value that the source has now. */
  get #current() {
    const range = this.#mark?.find();
    const text = range && this.host.shelf.shown?.doc.getLine(range.from.line).slice(range.from.ch, range.to.ch);
    return text ? Number(text) : NaN;
  }

  /** @param {PointerEvent | MouseEvent} event */
  #resultAt({ clientX }) {
    const { left, width } = element("tune-curve").getBoundingClientRect();
    const at = clamp(Math.floor(((clientX - left) / width) * this.results.length), 0, this.results.length - 1);
    return this.results[at];
  }

  /** @param {PointerEvent} event */
  #point(event) {
    const result = this.#resultAt(event);
    const tip = element("tip");
    tip.hidden = !result?.row;
    if (!result?.row) return;
    const { wins, ties, losses } = result.row;
    const head = make("b", {}, `${number(result.value)}: ${meanOf(result).toFixed(2)}`);
    const shares = `${number(wins)} won, ${number(ties)} tied, ${number(losses)} lost. Click to take the value.`;
    refill(tip, make("p", {}, head, " points per round"), make("p", { className: "soft" }, shares));
    placeTip(tip, { x: event.clientX, y: event.clientY });
  }

  #draw() {
    const best = this.#bestResult;
    element("tune-stop").hidden = !this.host.pool.has("tune");
    const lead = this.#leadWords;
    element("tune-best").hidden = !lead;
    if (lead) element("tune-best").textContent = lead;
    const range = this.#mark?.find();
    const line = range && this.host.shelf.shown?.doc.getLine(range.from.line);
    refill(element("tune-line"), line ? make("code", {}, line.split(";")[0].trim().replace(/\s+/g, " ")) : "");
    refill(element("tune-note"), withCode(this.#note));
    const most = Math.max(1, ...this.#worth);
    drawSweep(typed("tune-curve", HTMLCanvasElement), this.results, { best, most, current: this.#current });
  }
}

/**
 * Returns the numbers of a line of code.
 * @param {string} code
 * @param {number} line
 */
const numbersIn = (code, line) =>
  [...code.matchAll(NUMBER)].map(({ index: from = 0, 0: text }) => ({ line, from, to: from + text.length, text }));

/**
 * Adds the row of a match to a result.
 * @param {Result} result
 * @param {import("../engine/mars.js").Row | null} row null if the source with this value has an error
 */
function add(result, row) {
  result.left--;
  if (row) result.row = result.row ? sumOf(result.row, row) : row;
}

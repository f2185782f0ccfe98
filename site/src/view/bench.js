/** The bench: the source in the editor against each opponent, fought again whenever it changes. */
import { MarsError } from "../model/errors.js";
import { countWords, number, pluralize } from "../words/battle.js";
import { changeOf, isSure, mean, verdict } from "../words/comparison.js";
import { Stopped } from "../worker/pool.js";
import { clamp, debounce, element, make, onClick, refill, throttle, typed, withCode } from "./dom.js";
import { errorWords, sumOf } from "./host.js";
import { PositionMap } from "./map.js";
import { Tune } from "./tune.js";

/** @typedef {import("./host.js").MatchTerms} MatchTerms */
/** @typedef {import("./host.js").Source} Source */
/** @typedef {import("../engine/warrior.js").Warrior} Warrior */
/** @typedef {import("../words/comparison.js").Change} Change */
/** @typedef {import("../worker/jobs.js").Scored} Scored */
/** @typedef {{source: Source, rows: Map<string, Scored>}} Base a version, and its rows by opponents and terms */

const STALE = "The source has an error; the results below are from before it.";

/** @param {number} value */
const fixed = (value) => value.toFixed(2);

export class Bench {
  isOpen = false;
  /** @type {Source | null} */
  #own = null;
  #title = "";
  #fault = "";
  /** @type {Source[]} */
  #opponents = [];
  /** @type {Map<string, Scored>} */
  rows = new Map();
  /** @type {MatchTerms | null} */
  #terms = null;
  /**
   * The version with which the source is compared.
   * @type {Base | null}
   */
  #base = null;
  /** @type {Map<string, string>} */
  #names = new Map();
  /** @type {Map<string, string>} */
  #faults = new Map();
  #began = 0;
  #took = 0;
  #run = 0;
  /** The source, terms and opponents that were fought last, as JSON. */
  #fought = "";
  #later = throttle(() => this.#draw(), 100);
  /** Called once the source was checked or other sources fight. Fights again soon, or says that the source is wrong. */
  checked = debounce(() => {
    if (this.isOpen && this.host.shelf.checker.isBroken) element("bench-note").textContent = STALE;
    else if (this.isOpen) this.fight();
  }, 350);

  /**
   * @param {import("./host.js").Host} host
   * @param {() => void} show shows the bench
   */
  constructor(host, show) {
    this.host = host;
    this.tune = new Tune(host, () => this.#rivals, show);
    this.map = new PositionMap(host);
    onClick("bench-base", () => {
      if (this.#own) this.compare(this.#own);
    });
    element("bench-against").addEventListener("change", () => this.fight());
  }

  open() {
    this.isOpen = true;
    this.fight();
  }

  close() {
    this.isOpen = false;
    this.host.pool.drop("bench");
    if (this.rows.size + this.#faults.size < this.#opponents.length) this.#fought = "";
  }

  /** Fights the source in the editor against each opponent, unless these matches were fought last. */
  async fight() {
    const { shelf, pool } = this.host;
    const own = shelf.current;
    if (!own) return;
    const terms = this.host.terms();
    const opponents = this.#rivals;
    const key = JSON.stringify([own, terms, opponents]);
    if (key === this.#fought) return this.#draw();
    pool.drop("bench");
    this.#begin(own, opponents, terms, key);
    const run = ++this.#run;
    try {
      const [{ warrior, name }] = await pool.ask("warriors", [[own], terms], "bench", 2);
      const before = await this.#before(terms);
      if (run !== this.#run) return;
      this.#title = name || own.name;
      await Promise.all(opponents.map((opponent) => this.#meet(warrior, before, opponent, run)));
    } catch (error) {
      if (run === this.#run) this.#fault = errorWords(error, [own], this.host.meanings);
    }
    if (run === this.#run) this.#draw();
  }

  /** The sources that are opponents of the one in the editor. */
  get #rivals() {
    const { shelf } = this.host;
    const isAll = typed("bench-against", HTMLSelectElement).value === "all";
    return (isAll ? shelf.all : shelf.fighters).filter(({ name }) => name !== shelf.current?.name);
  }

  /** The version with which the source is compared, or null. */
  get base() {
    return this.#base?.source ?? null;
  }

  /**
   * Compares from now on with a version. If it is the source that was fought last, its results are taken over.
   * @param {Source} source
   */
  compare(source) {
    this.#base = { source, rows: new Map() };
    this.host.note();
    for (const opponent of source === this.#own ? this.#opponents : []) {
      const row = this.rows.get(opponent.name);
      if (row) this.#base.rows.set(this.#key(opponent), row);
    }
    this.#draw();
  }

  /**
   * Returns the key of a row of the base. It has the opponent and the terms, so that a match is fought again if they
   * change.
   * @param {Source} opponent
   */
  #key(opponent) {
    return JSON.stringify([opponent, this.#terms]);
  }

  /**
   * Returns the version with which the source is compared, assembled for these terms, or null if there is none.
   * @param {MatchTerms} terms
   */
  async #before(terms) {
    const base = this.#base;
    if (!base) return null;
    try {
      const [{ warrior }] = await this.host.pool.ask("warriors", [[base.source], terms], "bench", 2);
      return { base, warrior };
    } catch (error) {
      if (error instanceof MarsError) return null;
      throw error;
    }
  }

  /**
   * @param {Source} own
   * @param {Source[]} opponents
   * @param {MatchTerms} terms
   * @param {string} key what is fought
   */
  #begin(own, opponents, terms, key) {
    if (own.name !== this.base?.name) this.#base = null;
    this.#own = own;
    this.#terms = terms;
    this.#title = own.name;
    this.#opponents = opponents;
    this.#fought = key;
    this.#fault = "";
    this.#began = performance.now();
    this.rows = new Map();
    this.#faults = new Map();
    this.#draw();
  }

  /**
   * Fights a match with an opponent, and one between the version before and that opponent unless its result is known.
   * If another run has begun meanwhile, only the result of the version before is kept.
   * @param {Warrior} own
   * @param {{base: Base, warrior: Warrior} | null} before
   * @param {Source} opponent
   * @param {number} run
   */
  async #meet(own, before, opponent, run) {
    const [{ pool, meanings }, terms, key] = [this.host, this.#terms, this.#key(opponent)];
    if (!terms) return;
    try {
      const [{ warrior, name }] = await pool.ask("warriors", [[opponent], terms], "bench", 2);
      const row = await pool.ask("scores", [[own, warrior], terms], "bench", 2);
      if (before && !before.base.rows.has(key)) {
        before.base.rows.set(key, await pool.ask("scores", [[before.warrior, warrior], terms], "bench", 2));
      }
      if (run !== this.#run) return;
      this.#names.set(opponent.name, name || opponent.name);
      this.rows.set(opponent.name, row);
      // The baseline can be set before all of its matches are fought.
      if (this.#base?.source === this.#own) this.#base?.rows.set(key, row);
    } catch (error) {
      if (run !== this.#run || error instanceof Stopped) return;
      this.#faults.set(opponent.name, errorWords(error, [opponent], meanings));
    }
    this.#took = performance.now() - this.#began;
    this.#later();
  }

  #draw() {
    element("bench-title").textContent = this.#title;
    const done = this.rows.size + this.#faults.size;
    const against = pluralize(this.#opponents.length, "opponent");
    const rounds = pluralize(this.#terms?.rounds ?? 0, "round");
    const whole = `${against}, ${rounds} each, in ${number(Math.round(this.#took))} ms`;
    const note = done < this.#opponents.length ? `${done} of ${against} …` : whole;
    refill(element("bench-note"), withCode(this.#fault || note));
    const [row] = this.rows.values();
    if (row) element("bench-best").textContent = String(bestOf(row));
    refill(element("bench-total"), ...this.#total());
    refill(element("bench-change"), ...this.#change());
    refill(element("bench-rows"), ...this.#opponents.map((opponent) => this.#line(opponent)));
  }

  /** Returns the elements that show the mean points per round over all opponents; none before the first result. */
  #total() {
    const rows = [...this.rows.values()];
    if (!rows.length) return [];
    const sum = rows.reduce((one, other) => ({ ...one, ...sumOf(one, other) }));
    const { points, far } = mean(sum);
    const rest = make("span", { className: "soft" }, ` ± ${fixed(far)} points per round`);
    return [make("strong", {}, fixed(points)), rest];
  }

  /** Returns how the mean has changed, and what that shows. */
  #change() {
    const found = this.#changeOf(this.#opponents);
    return found ? ["Change from the baseline: ", ...described(found), `. ${verdict(found)}`] : [];
  }

  /**
   * Returns the change against the opponents that both versions have fought, or null if there are none.
   * @param {Source[]} opponents
   */
  #changeOf(opponents) {
    const pairs = opponents.flatMap((opponent) => {
      const [old, now] = [this.#base?.rows.get(this.#key(opponent)), this.rows.get(opponent.name)];
      return old && now ? [[old.scores, now.scores]] : [];
    });
    const [old, now] = [0, 1].map((version) => pairs.map((pair) => pair[version]));
    return pairs.length ? changeOf(old, now, !this.#terms?.position) : null;
  }

  /**
   * Returns the row of the table for an opponent.
   * @param {Source} opponent
   */
  #line(opponent) {
    const row = this.rows.get(opponent.name);
    const title = this.#names.get(opponent.name) ?? opponent.name;
    if (!row) {
      const why = this.#faults.get(opponent.name) ?? (this.#fault ? "" : "…");
      const cell = make("td", { className: "soft", colSpan: 6 }, withCode(why));
      return make("tr", {}, make("td", {}, opponent.name), cell);
    }
    const { points, far } = mean(row);
    const change = this.#changeOf([opponent]);
    const before = change ? points - change.change : undefined;
    const rounds = row.wins + row.ties + row.losses;
    const shares = [row.wins, row.ties, row.losses].map((count) => Math.round((100 * count) / rounds)).join(" · ");
    const show = () => this.#own && this.host.fight([this.#own, opponent]);
    const map = () => this.#own && this.map.open([this.#own, opponent], [this.#title, title]);
    const every = { className: "link soft", title: "Every starting distance, in both orders", onclick: map };
    return make(
      "tr",
      {},
      make("td", {}, make("button", { className: "link", title: "Watch the first round", onclick: show }, title)),
      make("td", { className: "shares" }, stack(row)),
      make("td", { className: "mean" }, scale(points, far, before, bestOf(row))),
      make("td", {}, `${fixed(points)} ± ${fixed(far)}`),
      make("td", {}, ...(change ? described(change) : [])),
      make("td", { className: "soft counts" }, shares),
      make("td", {}, make("button", every, "Map")),
    );
  }
}

/**
 * Returns the points of the best outcome of a round, at least 1.
 * @param {Scored} row
 */
const bestOf = ({ values }) => Math.max(1, ...values);

/**
 * Returns a change with its standard error, if that is known.
 * @param {Change} change
 */
function described({ change, error }) {
  const className = !isSure({ change, error }) ? "soft" : change > 0 ? "better" : "worse";
  const signed = `${change >= 0 ? "+" : "−"}${fixed(Math.abs(change))}`;
  const chance = make("span", { className: "soft chance" }, error === null ? "" : `, error ${fixed(error)}`);
  return [make("span", { className }, signed), chance];
}

/**
 * Returns a bar with the shares of wins, ties and losses.
 * @param {import("../engine/mars.js").Row} row
 */
function stack(row) {
  const title = countWords(row);
  const part = (/** @type {string} */ className, /** @type {number} */ value) =>
    make("i", { className, style: `flex:${value}` });
  const parts = [part("win", row.wins), part("tie", row.ties), part("loss", row.losses)];
  return make("span", { className: "stack", role: "img", "aria-label": title, title }, ...parts);
}

/**
 * Returns a scale with the points, their interval, and the points before.
 * @param {number} points
 * @param {number} far
 * @param {number | undefined} base
 * @param {number} best the right end of the scale
 */
function scale(points, far, base, best) {
  const share = (/** @type {number} */ value) => (100 * clamp(value, 0, best)) / best;
  const interval = `left:${share(points - far)}%;right:${100 - share(points + far)}%`;
  return make(
    "span",
    { className: "scale" },
    base === undefined ? null : make("i", { className: "base", style: `left:${share(base)}%` }),
    make("i", { className: "far", style: interval }),
    make("i", { className: "point", style: `left:${share(points)}%` }),
  );
}

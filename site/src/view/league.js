/** The league: a match of every two sources. The table and the wins of each pair grow as matches end. */
import { MarsError } from "../model/errors.js";
import { countWords, number, pluralize } from "../words/battle.js";
import { Stopped } from "../worker/pool.js";
import { element, make, onClick, refill, throttle, typed, withCode } from "./dom.js";
import { allOf, errorWords, sumOf } from "./host.js";

/** @typedef {import("../engine/warrior.js").Warrior} Warrior */
/** @typedef {import("./host.js").MatchTerms} MatchTerms */
/** @typedef {import("../engine/mars.js").Row} Row */
/** @typedef {import("./host.js").Source} Source */
/** @typedef {[number, number, Row, Row]} Result the indices of two sources, and their rows */
/**
 * A league that outlives the page. `results` has the counts that `resultOf` reads, and `took` is in milliseconds.
 * @typedef {{sources: Source[], names: string[], errors: string[], terms: MatchTerms, took: number,
 *   results: number[][]}} KeptLeague
 */
/**
 * Runs the matches of a league elsewhere: yields stored results first, and the others as matches end.
 * @typedef {(sources: Source[], terms: MatchTerms) => AsyncGenerator<Result[]>} Runner
 */

/** The maximum number of warriors whose matrix has numbers; the matrix of more warriors is a picture. */
const MAX_TABLE_SIZE = 40;
const NOTHING = { points: 0, wins: 0, ties: 0, losses: 0 };
const WON = [0, 150, 130];
const LOST = [214, 40, 92];

export class League {
  /** @type {Source[]} */
  #sources = [];
  /** @type {string[]} */
  #names = [];
  /**
   * Why sources were left out.
   * @type {string[]}
   */
  #faults = [];
  /** Why matches are missing, or "". */
  #problem = "";
  /**
   * The row of each source against each other one.
   * @type {(Row | null)[][]}
   */
  against = [];
  done = 0;
  total = 0;
  /** @type {MatchTerms} */
  #terms;
  #isRunning = false;
  #run = 0;
  #began = 0;
  #took = 0;
  #later = throttle(() => this.draw(), 200);
  #soon = throttle(() => this.keep(this.#kept), 2000);

  /**
   * @param {import("./host.js").Host} host
   * @param {Runner | null} runner
   * @param {KeptLeague | null} before the league that was run before the page was loaded
   * @param {(league: KeptLeague) => void} keep
   */
  constructor(host, runner, before, keep) {
    this.host = host;
    this.runner = runner;
    this.keep = keep;
    this.#terms = host.terms();
    if (before) this.#resume(before);
    onClick("league-run", () => this.runAll());
    onClick("league-stop", () => this.#stop());
  }

  #stop() {
    this.#run++;
    this.#isRunning = false;
    this.host.pool.drop("league");
    this.draw();
  }

  /** Runs the league of the selected sources, or of all. Resolves when it has ended. */
  async runAll() {
    const { pool, shelf } = this.host;
    const isAll = typed("league-of", HTMLSelectElement).value === "all";
    const sources = isAll ? shelf.all : shelf.fighters;
    if (sources.length < 2) {
      element("league-note").textContent = "A league needs at least two sources; select them in the list of sources.";
      return;
    }
    const run = ++this.#run;
    pool.drop("league");
    this.#problem = "";
    this.#isRunning = true;
    this.#began = performance.now();
    try {
      const warriors = await this.#enter(sources, this.host.terms(), run);
      if (this.runner && this.total) await this.#runElsewhere(this.runner, run);
      else await this.#runHere(warriors, run);
    } catch (error) {
      if (run === this.#run) this.#problem = errorWords(error, [], this.host.meanings);
    }
    if (run !== this.#run) return;
    this.#isRunning = false;
    this.keep(this.#kept);
    this.draw();
  }

  /** @returns {KeptLeague} */
  get #kept() {
    const results = this.against.flatMap((line, one) =>
      line.flatMap((row, other) => {
        const reverse = this.against[other][one];
        return row && reverse && one < other ? [countsOf([one, other, row, reverse])] : [];
      }),
    );
    const [sources, names, errors, terms] = [this.#sources, this.#names, this.#faults, this.#terms];
    return { sources, names, errors, terms, took: Math.round(this.#took), results };
  }

  /** @param {KeptLeague} kept */
  #resume({ sources, names, errors, terms, took, results }) {
    this.#faults = errors;
    this.#begin(sources, names, terms);
    this.#enterResults(results.map(resultOf));
    this.#took = took;
  }

  /**
   * @param {Source[]} sources
   * @param {string[]} names
   * @param {MatchTerms} terms
   */
  #begin(sources, names, terms) {
    this.#terms = terms;
    this.#sources = sources;
    this.#names = names;
    this.against = sources.map(() => sources.map(() => null));
    this.done = this.#took = 0;
    this.total = (sources.length * (sources.length - 1)) / 2;
  }

  /**
   * Assembles the sources and returns their warriors. A source with an error is left out. If this league was stopped
   * before its end, its results stay.
   * @param {Source[]} sources
   * @param {MatchTerms} terms
   * @param {number} run
   */
  async #enter(sources, terms, run) {
    const { pool, meanings } = this.host;
    /** @type {Set<string>} */
    const faults = new Set();
    const pending = sources.map(async (source) => {
      try {
        const [entrant] = await pool.ask("warriors", [[source], terms], "league", 2);
        return { source, ...entrant };
      } catch (error) {
        if (error instanceof Stopped) throw error;
        const words = errorWords(error, [source], meanings);
        faults.add(error instanceof MarsError ? words : `${source.name}: ${words}`);
        return null;
      }
    });
    const entrants = (await Promise.all(pending)).flatMap((entrant) => entrant ?? []);
    if (run !== this.#run) throw new Stopped("stopped");
    this.#faults = [...faults];
    const entered = entrants.map(({ source }) => source);
    const isSame = JSON.stringify([entered, terms]) === JSON.stringify([this.#sources, this.#terms]);
    if (isSame && this.done < this.total) this.#began -= this.#took;
    else this.#begin(entered, entrants.map(({ source, name }) => name || source.name), terms);
    this.draw();
    return entrants.map(({ warrior }) => warrior);
  }

  /**
   * Runs the matches that are missing, in workers. A later run stops this one.
   * @param {Warrior[]} warriors
   * @param {number} run
   */
  async #runHere(warriors, run) {
    const [{ pool }, terms] = [this.host, this.#terms];
    const pairs = warriors.flatMap((_, one) => warriors.slice(one + 1).map((_, index) => [one, one + 1 + index]));
    const pending = pairs.filter(([one, other]) => !this.against[one][other]);
    const fights = pending.map(async ([one, other]) => {
      const rows = await pool.ask("match", [[warriors[one], warriors[other]], terms], "league");
      if (run === this.#run) this.#addResults([[one, other, rows[0], rows[1]]]);
    });
    await allOf(fights);
  }

  /**
   * Takes the results of a runner. A later run stops this one.
   * @param {Runner} runner
   * @param {number} run
   */
  async #runElsewhere(runner, run) {
    for await (const results of runner(this.#sources, this.#terms)) {
      if (run !== this.#run) return;
      this.#addResults(results);
    }
    if (this.done < this.total) throw new Error("the server has stopped");
  }

  /** @param {Result[]} results */
  #enterResults(results) {
    for (const [one, other, row, reverse] of results) {
      if (!this.against[one][other]) this.done++;
      this.against[one][other] = row;
      this.against[other][one] = reverse;
    }
  }

  /** @param {Result[]} results */
  #addResults(results) {
    this.#enterResults(results);
    this.#took = performance.now() - this.#began;
    this.#later();
    this.#soon();
  }

  /** Draws the table, the most points per round first. Rows and columns have the ranks of the warriors. */
  draw() {
    const sums = this.against.map((line) => line.flatMap((row) => row ?? []).reduce(sumOf, NOTHING));
    // Until all matches have ended, some warriors have fought more rounds than others.
    const means = sums.map(({ points, wins, ties, losses }) => points / Math.max(1, wins + ties + losses));
    const order = [...sums.keys()].sort((one, other) => means[other] - means[one]);
    this.#drawProgress();
    const isPicture = order.length > MAX_TABLE_SIZE;
    element("league-picture").hidden = !isPicture;
    if (isPicture) this.#drawPicture(order);
    const ranks = isPicture ? [] : order.map((_, rank) => make("th", { className: "rank" }, rank + 1));
    const heads = ["Points", "Won", "Tied", "Lost"].map((head) => make("th", {}, head));
    const lines = order.map((who, rank) => {
      const { points, wins, ties, losses } = sums[who];
      const counts = [wins, ties, losses].map((count) => make("td", { className: "soft" }, number(count)));
      const values = [make("td", {}, number(points)), ...counts];
      const name = make("th", { scope: "row" }, this.#names[who]);
      const cells = isPicture ? [] : order.map((other) => this.#cell(who, other));
      return make("tr", {}, make("td", { className: "soft" }, rank + 1), name, ...values, ...cells);
    });
    const head = make("tr", {}, make("th"), make("th", {}, "Warrior"), ...heads, ...ranks);
    refill(element("league-table"), ...(order.length ? [head, ...lines] : []));
  }

  #drawProgress() {
    const { done, total } = this;
    const rounds = pluralize(this.#terms.rounds, "round");
    const time = (this.#took / 1000).toFixed(1);
    const parts = [
      total && `${number(done)} of ${pluralize(total, "match")}, ${rounds} each, in ${time} s`,
      this.#faults.length && `left out: ${this.#faults.join(" ")}`,
      this.#problem && `error: ${this.#problem}`,
    ];
    refill(element("league-note"), withCode(parts.filter(Boolean).join("; ")));
    element("league-stop").hidden = !this.#isRunning;
    const progress = typed("league-done", HTMLProgressElement);
    progress.max = Math.max(1, total);
    progress.value = done;
    progress.hidden = !this.#isRunning;
  }

  /**
   * Returns the cell with the wins of one warrior against another. A click on it shows their first round.
   * @param {number} who
   * @param {number} other
   */
  #cell(who, other) {
    const row = this.against[who][other];
    if (!row) return make("td", { className: "match" }, who === other ? "·" : "");
    const [red, green, blue, share] = shade(row);
    const names = `${this.#names[who]} against ${this.#names[other]}`;
    const title = `${names}: ${countWords(row)}. Click to watch the first round.`;
    const button = make("button", { className: "bare", title, onclick: () => this.#show(who, other) }, row.wins);
    const style = `background:rgba(${red},${green},${blue},${share.toFixed(2)})`;
    return make("td", { className: "match", style }, button);
  }

  /**
   * @param {number} who
   * @param {number} other
   */
  #show(who, other) {
    const pair = [Math.min(who, other), Math.max(who, other)].map((index) => this.#sources[index]);
    return this.host.fight(pair, this.#terms);
  }

  /**
   * Draws the matrix of many warriors, some pixels for each pair.
   * @param {number[]} order
   */
  #drawPicture(order) {
    const canvas = typed("league-picture", HTMLCanvasElement);
    const size = Math.max(2, Math.floor(900 / order.length));
    canvas.width = canvas.height = size * order.length;
    const context = /** @type {CanvasRenderingContext2D} */ (canvas.getContext("2d"));
    order.forEach((who, y) =>
      order.forEach((other, x) => {
        const row = this.against[who][other];
        if (!row) return;
        const [red, green, blue, share] = shade(row);
        context.fillStyle = `rgba(${red},${green},${blue},${share})`;
        context.fillRect(x * size, y * size, size, size);
      }),
    );
    canvas.onclick = ({ offsetX, offsetY }) => {
      const scale = canvas.width / canvas.clientWidth / size;
      const at = (/** @type {number} */ offset) => order[Math.floor(offset * scale)];
      if (at(offsetX) !== at(offsetY)) this.#show(at(offsetY), at(offsetX));
    };
  }
}

/**
 * Returns the result with these counts: the indices of two sources; points, wins, ties and losses of the first one;
 * points of the other one.
 * @param {number[]} counts
 * @returns {Result}
 */
export function resultOf([one, other, points, wins, ties, losses, theirs]) {
  return [one, other, { points, wins, ties, losses }, { points: theirs, wins: losses, ties, losses: wins }];
}

/** @param {Result} result */
const countsOf = ([one, other, { points, wins, ties, losses }, reverse]) =>
  [one, other, points, wins, ties, losses, reverse.points];

/**
 * Returns the colour of a result: red, green and blue, 0 to 255, and how strong the colour is, 0 to 0.75.
 * @param {Row} row
 */
function shade({ wins, ties, losses }) {
  const share = (wins - losses) / (wins + ties + losses);
  return [...(share < 0 ? LOST : WON), Math.abs(share) * 0.75];
}

/** All rounds of the match: who won each of them, and by which lines warriors died. */
import { countWords, number, pluralize } from "../words/battle.js";
import { Stopped } from "../worker/pool.js";
import { element, make, onClick, refill, throttle } from "./dom.js";
import { allOf } from "./host.js";
import { swatch } from "./palette.js";

/** @typedef {import("../worker/jobs.js").Round} Round */
/** @typedef {import("../worker/jobs.js").SourceLine} SourceLine */
/** @typedef {import("./session.js").Session} Session */
/** @typedef {import("./side.js").ShowLine} ShowLine */
/**
 * How often, and how, a warrior died.
 * @typedef {Omit<import("../worker/jobs.js").Death, "turn"> & {count: number}} Why
 */
/** @typedef {Map<string, Map<number, {died: number, killed: number}>>} Hits by the name of a source and its line */

/** The number of rounds that are fought if the match has fewer, and the maximum numbers of squares and of reasons. */
const MIN_ROUNDS = 100;
const MAX_SQUARES = 1000;
const MAX_REASONS = 6;

export class Rounds {
  /** @type {Round[]} */
  #rounds = [];
  #match = "";
  /** Whether all rounds have been fought or are being fought. */
  isFought = false;
  #later = throttle(() => this.#draw(), 100);

  /**
   * @param {Session} session
   * @param {import("./host.js").Host} host
   * @param {ShowLine} show
   */
  constructor(session, host, show) {
    this.session = session;
    this.host = host;
    this.pool = host.pool;
    this.show = show;
    onClick("all-rounds", () => this.fight());
    session.listen((change) => {
      if (change === "battle") this.#open();
    });
  }

  #open() {
    const { fight } = this.session;
    if (!fight) return;
    const texts = fight.warriors.map(({ text }) => text);
    const match = JSON.stringify([texts, fight.settings, fight.seed, fight.position]);
    if (match !== this.#match) {
      this.pool.drop("rounds");
      this.#match = match;
      this.#rounds = [];
      this.isFought = false;
    }
    this.#draw();
  }

  async fight() {
    const { fight } = this.session;
    if (!fight) return;
    const match = this.#match;
    const rounds = Math.max(MIN_ROUNDS, fight.rounds);
    this.pool.drop("rounds");
    this.#rounds = [];
    this.isFought = true;
    this.host.note();
    const pending = Array.from({ length: rounds }, async (_, round) => {
      const outcome = await this.pool.ask("round", [{ ...fight, rounds, round, edits: [] }], "rounds", 1);
      if (match !== this.#match) return;
      this.#rounds[round] = outcome;
      this.#later();
    });
    try {
      await allOf(pending);
    } catch (error) {
      if (!(error instanceof Stopped)) throw error;
    }
    this.#draw();
  }

  #draw() {
    const { fight, opened, known } = this.session;
    if (!fight || !opened) return;
    const names = fight.warriors.map((_, source) => known.names[opened.order.indexOf(source)]);
    const shown = this.#rounds.slice(0, MAX_SQUARES);
    refill(element("strip"), ...Array.from(shown, (round, index) => this.#square(round, index, names)));
    const which = shown.length < this.#rounds.length ? ` for the first ${number(MAX_SQUARES)}` : "";
    element("strip-note").textContent = `One square per round${which}; click one to watch it`;
    const found = this.#rounds.filter(Boolean);
    element("tally").hidden = found.length === 0;
    refill(element("tally"), ...names.map((name, source) => tally(name, source, found)));
    const whys = whysOf(found);
    element("why-box").hidden = whys.length === 0;
    const others = whys.slice(MAX_REASONS);
    const rest = make("b", {}, `${number(countOf(others))}×`);
    const more = others.length ? [make("li", {}, rest, ` in ${pluralize(others.length, "other way")}`)] : [];
    refill(element("why"), ...whys.slice(0, MAX_REASONS).map((why) => this.#why(why, names)), ...more);
    this.host.shelf.takeHits(hitsOf(whys, fight.warriors.map(({ name }) => name)));
  }

  /**
   * Returns the square of a round, which is empty until the round has been fought.
   * @param {Round | undefined} round
   * @param {number} index
   * @param {string[]} names
   */
  #square(round, index, names) {
    const { session } = this;
    const { fight } = session;
    if (!round || !fight) return make("i");
    const winner = round.outcomes.indexOf("win");
    const how = winner < 0 ? "a tie" : `${names[winner]} wins`;
    const title = `Round ${index}: ${how} after ${pluralize(round.end, "turn")}`;
    const rounds = Math.max(fight.rounds, this.#rounds.length);
    return make("button", {
      className: `bare ${winner < 0 ? "tie" : ""}`,
      style: winner < 0 ? "" : swatch(winner),
      title,
      "aria-label": title,
      "aria-current": index === fight.round ? "true" : null,
      onclick: () => {
        // On a narrow page the core is far above.
        scrollTo(0, 0);
        return session.open({ ...fight, rounds, round: index, edits: [] });
      },
    });
  }

  /**
   * @param {Why} why
   * @param {string[]} names
   */
  #why({ count, warrior, cell, killer, by }, names) {
    const link = (/** @type {SourceLine} */ { source, line }) => {
      const found = this.session.fight?.warriors[source];
      if (!line || !found) return "an unknown line";
      const title = found.text.split("\n")[line - 1]?.trim();
      const show = () => this.show(found.name, line);
      return make("button", { className: "link", title, onclick: show }, `line ${line}`);
    };
    const of = (/** @type {SourceLine} */ { source, line }) => (line && source >= 0 ? ` of ${names[source]}` : "");
    const elsewhere = cell.source < 0 ? [" in empty memory"] : [" on ", link(cell), of(cell)];
    const where = cell.source === warrior && cell.line ? [" on its ", link(cell)] : elsewhere;
    const who = killer === warrior ? "itself" : names[killer];
    const isOwn = by.source === killer;
    const hit = isOwn && killer !== warrior ? [link(by), ` of ${who}`] : [`${who}, by `, link(by), isOwn ? "" : of(by)];
    const died = [make("b", {}, `${number(count)}×`), ` ${names[warrior]} died`, ...where];
    return make("li", {}, ...died, ...(killer < 0 ? [] : [", hit by ", ...hit]));
  }
}

/**
 * Returns how many deaths there are.
 * @param {Why[]} whys
 */
const countOf = (whys) => whys.reduce((sum, { count }) => sum + count, 0);

/**
 * @param {string} name
 * @param {number} source
 * @param {Round[]} rounds
 */
function tally(name, source, rounds) {
  const count = (/** @type {string} */ what) => rounds.filter(({ outcomes }) => outcomes[source] === what).length;
  const words = countWords({ wins: count("win"), ties: count("tie"), losses: count("loss") });
  return make("li", { style: swatch(source) }, make("i", { className: "chip" }), make("b", {}, name), ` ${words}`);
}

/**
 * Returns how warriors died, the most frequent first.
 * @param {Round[]} rounds
 */
function whysOf(rounds) {
  /** @type {Map<string, Why>} */
  const whys = new Map();
  for (const { warrior, cell, killer, by } of rounds.flatMap(({ deaths }) => deaths)) {
    const key = [warrior, cell.source, cell.line, killer, by.source, by.line].join();
    const why = whys.get(key) ?? { count: 0, warrior, cell, killer, by };
    why.count++;
    whys.set(key, why);
  }
  return [...whys.values()].sort((one, other) => other.count - one.count);
}

/**
 * Returns for each line how often its warrior died on it, and how often it killed another warrior.
 * @param {Why[]} whys
 * @param {string[]} names
 */
function hitsOf(whys, names) {
  /** @type {Hits} */
  const hits = new Map(names.map((name) => [name, new Map()]));
  const at = (/** @type {number} */ source, /** @type {number} */ line) => {
    const lines = hits.get(names[source]);
    const found = lines?.get(line) ?? { died: 0, killed: 0 };
    if (line) lines?.set(line, found);
    return found;
  };
  for (const { count, warrior, cell, killer, by } of whys) {
    if (cell.source === warrior) at(warrior, cell.line).died += count;
    if (killer >= 0 && killer !== warrior && by.source === killer) at(killer, by.line).killed += count;
  }
  return hits;
}

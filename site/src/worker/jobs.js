/** What workers do beside the battle that is shown: they assemble sources, fight matches, and look at rounds. */
import { History } from "../battle/history.js";
import { assembleAll, describe } from "../engine/warrior.js";
import { MarsError } from "../model/errors.js";
import { ASSEMBLY, FORMULA } from "../model/layout.js";
import { changedIn, copiedIn } from "./why.js";

/** @typedef {import("../engine/mars.js").Mars} Mars */
/** @typedef {import("../engine/mars.js").Row} Row */
/**
 * A row with the score of each round, and what a loss, a win and a tie are worth.
 * @typedef {Row & {scores: Float64Array, values: number[]}} Scored
 */
/** @typedef {import("../engine/warrior.js").Warrior} Warrior */
/** @typedef {import("../model/fight.js").Fight} Fight */
/** @typedef {import("../model/settings.js").Settings} Settings */
/**
 * The line from which a cell comes: the index of its source, and the number of the line, or 0 if it isn't known. The
 * index is -1 if the cell comes from no source.
 * @typedef {{source: number, line: number}} SourceLine
 */
/**
 * A death. `cell` is the line of the cell on which the warrior died, as the cell was before it was hit. `killer` is the
 * warrior that hit it, or -1 if no turn changed the cell, and `by` the line that the killer executed then.
 * @typedef {{warrior: number, turn: number, cell: SourceLine, killer: number, by: SourceLine}} Death
 */
/** @typedef {"win" | "tie" | "loss"} RoundResult */
/**
 * A round; warriors are in the order of the sources.
 * @typedef {{round: number, end: number, outcomes: RoundResult[], deaths: Death[]}} Round
 */

/** More turns than a battle can have. */
const EVERYTHING = 0xffffffff;
/** The line of a cell that comes from no source. */
const NO_LINE = { source: -1, line: 0 };

/**
 * Returns how each round of a match of two ended: 0 if the first warrior lost, 1 if it won, 2 if both survived.
 * @param {Uint8Array} survived what `survivors` of Mars returned
 */
const endsOf = (survived) =>
  Array.from({ length: survived.length / 2 }, (_, round) => {
    const [own, other] = survived.subarray(2 * round);
    return own ? own + other : 0;
  });

export class Jobs {
  /** @param {Mars} mars */
  constructor(mars) {
    this.mars = mars;
  }

  /**
   * Assembles a source. Throws a MarsError if it has an error.
   * @param {string} text
   * @param {{settings: Settings, rounds: number, warriors?: number}} terms
   */
  assemble(text, terms) {
    const warrior = this.mars.assemble(text, terms);
    const load = this.mars.writeLoad(warrior, terms);
    return { ...describe(warrior, text), load, lines: warrior.lines };
  }

  /**
   * Assembles sources for a match of two. An error has the index of its source as `warrior`.
   * @param {{text: string}[]} sources
   * @param {{settings: Settings, rounds: number}} terms
   */
  warriors(sources, terms) {
    return assembleAll(this.mars, sources, 2, terms).map((warrior, index) => ({
      warrior,
      name: describe(warrior, sources[index].text).name,
    }));
  }

  /**
   * @param {Warrior[]} warriors
   * @param {import("../engine/mars.js").Terms & {formula?: string}} terms
   */
  match(warriors, terms) {
    return this.mars.match(warriors, terms);
  }

  /**
   * Fights a match of two, and returns the row of the first warrior with its scores.
   * @param {Warrior[]} warriors
   * @param {import("../engine/mars.js").Terms & {formula?: string}} terms
   * @returns {Scored}
   */
  scores(warriors, terms) {
    const ends = endsOf(this.mars.survivors(warriors, terms));
    const counts = [0, 1, 2].map((left) => ends.filter((end) => end === left).length);
    const [losses, wins, ties] = counts;
    const values = counts.map((count, left) => this.#scoreOf(left, terms.formula, count > 0));
    const scores = Float64Array.from(ends, (end) => values[end]);
    return { points: wins * values[1] + ties * values[2], wins, ties, losses, scores, values };
  }

  /**
   * Returns the points of each survivor of a round of two with this number of survivors; 0 without survivors, or if the
   * formula has no value and none is needed.
   * @param {number} survivors
   * @param {string | undefined} formula
   * @param {boolean} isNeeded whether there are such rounds; for others a formula may have no value
   */
  #scoreOf(survivors, formula, isNeeded) {
    try {
      return this.mars.score(2, survivors, formula);
    } catch (error) {
      if (isNeeded) throw error;
      return 0;
    }
  }

  /**
   * Fights a match of each version of a source, which differ in a number, with an opponent. Returns the row of each
   * version, or null if the version has an error, and what a loss, a win and a tie are worth.
   * @param {{before: string, after: string}} source the text around the number
   * @param {number[]} values
   * @param {Warrior} opponent
   * @param {import("../engine/mars.js").Terms & {formula?: string, settings: Settings, rounds: number}} terms
   */
  sweep({ before, after }, values, opponent, terms) {
    const rows = values.map((value) => {
      try {
        const own = this.mars.assemble(`${before}${value}${after}`, { ...terms, warriors: 2 });
        return this.mars.match([own, opponent], terms)[0];
      } catch (error) {
        if (error instanceof MarsError && error.code === ASSEMBLY) return null;
        throw error;
      }
    });
    return { rows, worth: [0, 1, 2].map((left) => this.#scoreOf(left, terms.formula, false)) };
  }

  /**
   * Fights two rounds of a pair at each position: the first warrior begins the first one, the other one the second.
   * Returns for each round 1 if the first warrior loses, 2 if it wins, 3 if both survive.
   * @param {Warrior[]} pair
   * @param {number[]} positions
   * @param {import("../engine/mars.js").Terms} terms
   */
  positions(pair, positions, { settings, seed }) {
    return Uint8Array.from(
      positions.flatMap((position) => {
        return endsOf(this.mars.survivors(pair, { settings, seed, rounds: 2, position })).map((end) => end + 1);
      }),
    );
  }

  /**
   * Throws a MarsError if a text is not a score formula. A formula may have no value for some numbers.
   * @param {string} formula
   */
  checkFormula(formula) {
    try {
      this.#scoreOf(1, formula, true);
    } catch (error) {
      if (!(error instanceof MarsError) || error.code === FORMULA) throw error;
    }
  }

  /**
   * Fights a round, and says by which lines warriors died.
   * @param {Fight} fight
   * @returns {Round}
   */
  round(fight) {
    const warriors = assembleAll(this.mars, fight.warriors, fight.warriors.length, fight);
    const ending = this.mars.start(warriors, fight);
    // If no warrior dies, the end shows everything, and no records are needed.
    this.mars.play(ending, EVERYTHING);
    const [{ round }, end] = [fight, ending.turns];
    const isTie = ending.deaths.length === 0;
    const deaths = isTie ? [] : this.#deaths(warriors, History.fight(this.mars, { ...fight, warriors }));
    const living = warriors.length - deaths.length;
    const isDead = (/** @type {number} */ who) => deaths.some(({ warrior }) => warrior === who);
    const survives = living === 1 ? "win" : "tie";
    return { round, end, outcomes: warriors.map((_, who) => (isDead(who) ? "loss" : survives)), deaths };
  }

  /**
   * Returns the deaths of a history, each with what was hit and what hit it, as `corewar why -r` does: the turn that
   * copied the cell's instruction there, or else the turn that changed the cell last.
   * @param {ReturnType<typeof assembleAll>} warriors
   * @param {History} history
   * @returns {Death[]}
   */
  #deaths(warriors, history) {
    const { order } = history;
    const lines = order.flatMap((source) => warriors[source].lines.map(({ line }) => ({ source, line })));
    const lineAt = (/** @type {number} */ address, /** @type {number} */ turn) =>
      lines[history.origin(address, turn)] ?? NO_LINE;
    return history.deaths.map(({ warrior, turn, address }) => {
      const hit = copiedIn(history, address, turn - 1) || changedIn(history, address, turn - 1);
      const death = { warrior: order[warrior], turn, cell: lineAt(address, (hit || turn) - 1) };
      if (!hit) return { ...death, killer: -1, by: NO_LINE };
      const { warrior: killer, address: from } = history.deed(hit);
      return { ...death, killer: order[killer], by: lineAt(from, hit - 1) };
    });
  }
}

/**
 * The proved machine, compiled to WebAssembly: the calls of mars.h over JavaScript's values.
 *
 * A call frees all memory that it allocates in the module, so nothing outlives it. A battle is a value of the caller's.
 */
import { VERSION, MAX_WARRIORS, MarsLineup, MarsOutcome, MarsProgram, MarsRow } from "../model/layout.js";
import { DEFAULTS, FORMULA } from "../model/settings.js";
import { CELL_WORDS } from "../model/cells.js";
import { Battle } from "./battle.js";
import { Machine } from "./machine.js";

export { MarsError } from "../model/errors.js";

/** @typedef {import("../model/settings.js").Settings} Settings */
/**
 * A warrior, as a value: `cells` are three words for each cell, whose numbers are for the core size of the settings by
 * which the warrior was assembled or read; `start` is the index of the cell at which it starts.
 * @typedef {{name: string, author: string, start: number, cells: Uint32Array}} Warrior
 */
/** @typedef {{line: number, labels: string[]}} Line the number of a cell's line, from 1, and its labels */
/** @typedef {{points: number, wins: number, ties: number, losses: number}} Row the result of a warrior */
/**
 * How a warrior fares in a round, as the header describes MarsOutcome.
 * @typedef {{survived: number, turns: number, start: number, own_turns: number, spawned: number, executed: number,
 *   written: number, touched: number}} Outcome
 */
/**
 * What a match is fought by. `position` is the address of the second of two warriors, or 0 if positions are drawn.
 * @typedef {{settings?: Settings, rounds?: number, seed?: number, position?: number}} Terms
 */

const encoder = new TextEncoder();
/**
 * Returns the bytes of a name. The library rejects a name of more than 60 bytes or with a control character. It would
 * take a zero character as the end of the name; here each zero character becomes a line feed, which it rejects.
 * @param {string} name
 */
const nameBytes = (name) => encoder.encode(name.replaceAll("\0", "\n")).subarray(0, 64);
/** The number of bytes for labels in the first buffer of `assemble`. */
const LABELS = 1024;

export class Mars extends Machine {
  /** @param {WebAssembly.Instance} instance */
  constructor(instance) {
    super(instance);
    if (this.version !== VERSION) throw new Error(`mars.wasm has version ${this.version}, not ${VERSION}`);
  }

  /**
   * Compiles the module and returns the machine.
   * @param {BufferSource | WebAssembly.Module} code
   */
  static async load(code) {
    const module = code instanceof WebAssembly.Module ? code : await WebAssembly.compile(code);
    return new Mars(await WebAssembly.instantiate(module, {}));
  }

  get version() {
    return this.exports.mars_version();
  }

  /**
   * Assembles a source and returns its warrior, with the lines of its cells. Throws a MarsError with the line.
   * @param {string | Uint8Array} source
   * @param {{settings?: Settings, rounds?: number, warriors?: number}} terms what ROUNDS and WARRIORS stand for
   * @returns {Warrior & {lines: Line[]}}
   */
  assemble(source, { settings = DEFAULTS, rounds = 1, warriors = 2 } = {}) {
    return this.within((call) => {
      const given = [call.settings(settings, { rounds }), warriors, ...call.bytes(source)];
      const { warrior, lines } = call.program("mars_assemble", given, LABELS);
      return { ...warrior, lines };
    });
  }

  /**
   * Returns the warrior of a load file. Throws a MarsError with the line.
   * @param {string | Uint8Array} load
   * @param {{settings?: Settings}} terms
   */
  readLoad(load, { settings = DEFAULTS } = {}) {
    return this.within((call) => {
      const given = [call.settings(settings, {}), ...call.bytes(load)];
      return call.program("mars_read_load", given).warrior;
    });
  }

  /**
   * Returns the text of the load file of a warrior. Throws a MarsError if a cell, the start or a name is invalid.
   * @param {Warrior} warrior
   * @param {{settings?: Settings}} terms
   */
  writeLoad({ name, author, start, cells }, { settings = DEFAULTS } = {}) {
    return this.within((call) => {
      const program = call.allocate(MarsProgram.size);
      const bytes = call.bytesAt(program, MarsProgram.size).fill(0);
      bytes.set(nameBytes(name), MarsProgram.name);
      bytes.set(nameBytes(author), MarsProgram.author);
      const count = cells.length / CELL_WORDS;
      call.words(program, 2).set([count, start]);
      const given = [call.settings(settings, {}), call.wordsOf(cells), BigInt(count), program];
      return call.text("mars_write_load", given, 4096);
    });
  }

  /**
   * Runs a match of 1 to 16 warriors and returns a row for each.
   * @param {Warrior[]} warriors
   * @param {Terms & {formula?: string}} terms
   */
  match(warriors, terms = {}) {
    return this.#rows("mars_match", warriors, warriors.length, terms);
  }

  /**
   * Runs a league, a match of every two of up to 65,536 warriors, and returns a row for each.
   * @param {Warrior[]} warriors
   * @param {Terms & {formula?: string}} terms
   */
  league(warriors, terms = {}) {
    return this.#rows("mars_league", warriors, warriors.length, terms);
  }

  /**
   * Runs a match of each candidate with each opponent and returns the sum of each candidate's rows.
   * @param {Warrior[]} candidates
   * @param {Warrior[]} opponents
   * @param {Terms & {formula?: string}} terms
   */
  population(candidates, opponents, terms = {}) {
    return this.#rows("mars_population", [...candidates, ...opponents], candidates.length, terms);
  }

  /**
   * Returns the points of each survivor of a round with these numbers of warriors and survivors; 0 without survivors.
   * @param {number} warriors
   * @param {number} survivors
   */
  score(warriors, survivors, formula = FORMULA) {
    return this.within((call) => {
      const points = call.allocate(8);
      call.make("mars_score", [...call.bytes(formula), warriors, survivors, points]);
      return Number(call.view(points).getBigInt64(0, true));
    });
  }

  /**
   * Runs matches of some of the warriors, and returns how each warrior of each match fares in each round.
   * @param {Warrior[]} warriors
   * @param {number[][]} lineups the indices of the warriors of each match
   * @param {Terms & {seeds?: number[], counts?: boolean}} terms `seeds`: the seed of each match, in place of one for
   *   all; `counts`: whether to count what each warrior does
   * @returns {Outcome[][][]} by match, round and warrior of the match
   */
  outcomes(warriors, lineups, terms = {}) {
    const { settings = DEFAULTS, rounds = 1, seed = 1, seeds = [], position = 0, counts = false } = terms;
    return this.within((call) => {
      const table = call.allocate(MarsLineup.size * lineups.length);
      const size = MarsLineup.size / 4;
      const numbers = call.words(table, size * lineups.length).fill(0);
      lineups.forEach((lineup, index) => {
        const own = numbers.subarray(size * index, size * (index + 1));
        own[MarsLineup.seed / 4] = seeds[index] ?? seed;
        own[MarsLineup.count / 4] = lineup.length;
        // A row has no more places; the library rejects the length of a longer lineup.
        own.set(lineup.slice(0, MAX_WARRIORS), MarsLineup.warrior / 4);
        own[MarsLineup.counting / 4] = Number(counts);
      });
      const count = rounds * lineups.flat().length;
      const rows = call.allocate(MarsOutcome.size * count);
      const given = [call.settings(settings, { rounds, seed, position }), ...call.fighters(warriors)];
      call.make("mars_outcomes", [...given, table, BigInt(lineups.length), rows, BigInt(count)]);
      const [[, bytes], ...fields] = Object.entries(MarsOutcome);
      const words = call.words(rows, (bytes / 4) * count);
      let at = -bytes;
      const row = () => {
        at += bytes;
        const values = fields.map(([name, offset]) => [name, words[(at + offset) / 4]]);
        return /** @type {Outcome} */ (Object.fromEntries(values));
      };
      return lineups.map((lineup) => Array.from({ length: rounds }, () => lineup.map(row)));
    });
  }

  /**
   * Runs a match and returns for each round and each warrior 1 if it survived, otherwise 0, round by round.
   * @param {Warrior[]} warriors
   * @param {Terms} terms
   */
  survivors(warriors, terms = {}) {
    const [rounds] = this.outcomes(warriors, [[...warriors.keys()]], terms);
    return Uint8Array.from(rounds.flat(), ({ survived }) => survived);
  }

  /**
   * Returns the battle at the start of a round; `round` is its number, from 0.
   * @param {Warrior[]} warriors
   * @param {Terms & {round?: number}} terms
   */
  start(warriors, { settings = DEFAULTS, round = 0, rounds = round + 1, seed = 1, position = 0 } = {}) {
    return this.within((call) => {
      const given = call.settings(settings, { rounds, seed, position });
      const words = Number(this.exports.mars_words(given, warriors.length));
      const block = call.allocate(4 * words);
      call.make("mars_start", [given, ...call.fighters(warriors), round, block, BigInt(words)]);
      return new Battle(call.words(block, words).slice());
    });
  }

  /**
   * Makes a call that runs matches and fills rows.
   * @param {string} name
   * @param {Warrior[]} warriors
   * @param {number} count
   * @param {Terms & {formula?: string}} terms
   * @returns {Row[]}
   */
  #rows(name, warriors, count, { settings = DEFAULTS, rounds = 1, seed = 1, position = 0, formula = FORMULA }) {
    return this.within((call) => {
      const rows = call.allocate(MarsRow.size * count);
      const given = [call.settings(settings, { rounds, seed, position }), ...call.bytes(formula)];
      call.make(name, [...given, ...call.fighters(warriors), rows, BigInt(count)]);
      const view = call.view(rows);
      const number = (/** @type {number} */ offset) => Number(view.getBigInt64(offset, true));
      return Array.from({ length: count }, (_, index) => ({
        points: number(index * MarsRow.size + MarsRow.points),
        wins: number(index * MarsRow.size + MarsRow.wins),
        ties: number(index * MarsRow.size + MarsRow.ties),
        losses: number(index * MarsRow.size + MarsRow.losses),
      }));
    });
  }
}

/** The story of a battle: what happens first in it, and the most processes of each warrior. */
import { CHANGES, EXECUTES, NUMBER_OWNER, NUMBER_QUEUED } from "../model/layout.js";
import { by, deedOf, foundIn, isChanged } from "./records.js";

/** @typedef {import("./place.js").Place} Place */
/** @typedef {import("./run.js").Run} Run */
/**
 * What happened in a turn, to which warrior. `other` is the other warrior, or the owner of the cell; `address` is -1 if
 * no cell is meant; `count` is a number of processes, or the turn that wrote the cell.
 * @typedef {object} Event
 * @property {number} turn
 * @property {"start" | "split" | "hit" | "most" | "death" | "edit" | "end"} kind
 * @property {number} warrior
 * @property {number} other
 * @property {number} address
 * @property {number} count
 */

/** The story of a battle of more warriors has neither splits nor hits. */
const MAX_STORY_WARRIORS = 4;

/** @type {Event} */
export const EVENT = { turn: 0, kind: "start", warrior: -1, other: -1, address: -1, count: 0 };

/** What happens first in a run, and its peaks; read part by part, since each turn is played again. */
export class Story {
  /** @type {Event[]} */
  events = [];
  #next = 0;

  /** @param {Run} run */
  constructor(run) {
    this.run = run;
    this.processes = run.start.processes;
    /** The most processes that each warrior has had, and the first turn in which it had that many. */
    this.peaks = this.processes.map((count) => ({ count, turn: run.first }));
    const warriors = this.processes.length > MAX_STORY_WARRIORS ? [] : [...this.processes.keys()];
    /** Which warriors have not split yet, and which have not yet hit which others. */
    this.unsplit = new Set(warriors);
    this.pairs = warriors.flatMap((who) => warriors.filter((other) => other !== who).map((other) => ({ who, other })));
  }

  /** Whether the whole run has been read. */
  get isRead() {
    return this.#next === this.run.marks.length;
  }

  /** Reads the turns up to the next mark. */
  read() {
    const mark = this.run.marks[this.#next++];
    const turns = (this.run.marks[this.#next] ?? this.run.ending).turn - mark.turn;
    const found = [...this.#splits(mark, turns), ...this.#hits(mark, turns)];
    this.events.push(...found.sort((one, other) => one.turn - other.turn));
  }

  /**
   * Returns the first splits in the turns after a mark, and notes peaks.
   * @param {Place} mark
   * @param {number} turns
   */
  #splits(mark, turns) {
    const { processes, peaks, unsplit } = this;
    /** @type {Event[]} */
    const events = [];
    // The turns that queue no process or two: a range whose end is below its start goes around.
    const rows = this.run.mars.find(mark, turns, [[EXECUTES, NUMBER_QUEUED, 2, 0]], turns);
    for (const { turn, warrior, queued, address } of foundIn(rows)) {
      const count = (processes[warrior] += queued - 1);
      if (queued === 2 && unsplit.delete(warrior)) events.push({ ...EVENT, turn, kind: "split", warrior, address });
      if (count > peaks[warrior].count) peaks[warrior] = { count, turn };
    }
    return events;
  }

  /**
   * Returns the first hits of one warrior on another in the turns after a mark.
   * @param {Place} mark
   * @param {number} turns
   */
  #hits(mark, turns) {
    /** @type {Set<number>} */
    const found = new Set();
    for (const { who, other } of this.pairs) {
      const hit = [by(who, CHANGES), /** @type {const} */ ([CHANGES, NUMBER_OWNER, other, other])];
      for (const { turn } of foundIn(this.run.mars.find(mark, turns, hit, 1))) found.add(turn);
    }
    return [...found].sort((one, other) => one - other).flatMap((turn) => this.#hitsOf(mark, turn));
  }

  /**
   * Returns the hits of a turn that are the first of one warrior on another.
   * @param {Place} mark
   * @param {number} turn
   */
  #hitsOf(mark, turn) {
    const place = mark.copy().playTo(this.run.mars, turn - 1);
    const { warrior, changes } = deedOf(this.run.mars.play(place.battle, 1, { records: 1, touched: 1 }));
    return changes.filter(isChanged).flatMap(({ address }) => {
      const other = place.owner(address);
      const isFirst = this.pairs.some((pair) => pair.who === warrior && pair.other === other);
      this.pairs = this.pairs.filter((pair) => pair.who !== warrior || pair.other !== other);
      return isFirst ? { ...EVENT, turn, kind: /** @type {const} */ ("hit"), warrior, other, address } : [];
    });
  }
}

/**
 * The history of a battle: its state after any turn, who changed a cell, and what edits lead to.
 *
 * A run of a battle is kept as marks at regular distances, and any other turn is played from the mark before it.
 */
import { CHANGES, NUMBER_ADDRESS } from "../model/layout.js";
import { writeCell } from "../model/cells.js";
import { describe } from "../engine/warrior.js";
import { Sampler } from "./overview.js";
import { Place } from "./place.js";
import { deedOf, foundIn, isChanged } from "./records.js";
import { Run } from "./run.js";
import { EVENT } from "./story.js";

/** @typedef {import("../engine/mars.js").Mars} Mars */
/** @typedef {import("../engine/warrior.js").Warrior} Warrior */
/** @typedef {import("../model/fight.js").Edit} Edit */
/** @typedef {import("../model/fight.js").Made} Made */
/** @typedef {import("./overview.js").Overview} Overview */
/** @typedef {import("./story.js").Event} Event */
/**
 * What is needed of a fight: `warriors` in the order of its sources.
 * @typedef {Omit<import("../model/fight.js").Fight, "warriors" | "edits"> & {warriors: Warrior[]}} Match
 */

/** The maximum number of steps between the first and the last moment of an overview, if edits do not cut steps. */
const STEPS = 600;
/** The index of an origin that was not loaded. */
const UNKNOWN = 0xffffffff;

/**
 * The turns of a run that a history has, up to the next edit or to the end.
 * @typedef {{run: Run, last: number}} Segment
 */

/**
 * A round of a match from its start to its end. It never changes: an edit gives another history with the same turns
 * before.
 */
export class History {
  /** @type {{run: Run, place: Place} | null} */
  #cursor = null;

  /**
   * @param {Mars} mars
   * @param {Match} match
   * @param {number[]} loaded the addresses of the loaded cells, warrior by warrior
   * @param {Segment[]} segments
   */
  constructor(mars, match, loaded, segments) {
    this.mars = mars;
    this.match = match;
    this.loaded = loaded;
    this.segments = segments;
    this.order = orderOf(match);
  }

  /**
   * Fights a round.
   * @param {Mars} mars
   * @param {Match} match
   */
  static fight(mars, match) {
    const { warriors, settings, round, rounds, seed, position } = match;
    const place = Place.empty(mars.start(warriors, { settings, round, rounds, seed, position }));
    const loaded = orderOf(match).flatMap((source, warrior) => {
      const { start, cells } = describe(warriors[source]);
      const first = place.battle.queue(warrior)[0] - start + settings.core;
      const addresses = cells.map((_, index) => (first + index) % settings.core);
      for (const address of addresses) place.load(address, warrior);
      return addresses;
    });
    const run = new Run(mars, place);
    return new History(mars, match, loaded, [{ run, last: run.ending.turn }]);
  }

  get core() {
    return this.start.battle.core;
  }

  get start() {
    return this.segments[0].run.start;
  }

  /** The number of the last turn. */
  get end() {
    return this.segments[this.segments.length - 1].last;
  }

  get ending() {
    return this.segments[this.segments.length - 1].run.ending;
  }

  /**
   * The edits, each with the turn after which it was made.
   * @returns {Made[]}
   */
  get edits() {
    return this.segments.flatMap(({ run }) => (run.edit ? { turn: run.first, edit: run.edit } : []));
  }

  /** The deaths in order, each with the cell on which the warrior died, its owner and the turn that wrote it. */
  get deaths() {
    return this.segments.flatMap(({ run, last }) => run.deaths.filter(({ turn }) => turn <= last));
  }

  /**
   * Returns the segment that has the battle after a turn and after the edits that follow that turn.
   * @param {number} turn
   */
  segment(turn) {
    const found = [...this.segments].reverse().find(({ run }) => run.first <= turn);
    if (!found || turn > this.end) throw new RangeError(`the battle has turns 0 to ${this.end}`);
    return found;
  }

  /**
   * Returns the battle after a turn and after the edits that follow that turn. The next call changes the returned
   * place: copy it to keep it.
   * @param {number} turn
   */
  place(turn) {
    const { run } = this.segment(turn);
    const mark = run.mark(turn);
    const cursor = this.#cursor ?? { run, place: mark.copy() };
    if (cursor.run !== run || cursor.place.turn > turn || cursor.place.turn < mark.turn) {
      cursor.place.become(mark);
      cursor.run = run;
    }
    this.#cursor = cursor;
    return cursor.place.playTo(this.mars, turn);
  }

  /**
   * Returns the origin of a cell after a turn and the edits that follow that turn: the index in `loaded` of the cell of
   * which it is a copy, or UNKNOWN if it is a copy of none.
   * @param {number} address
   * @param {number} turn
   */
  origin(address, turn) {
    return this.loaded.indexOf(this.place(turn).origin(address)) >>> 0;
  }

  /**
   * Returns the origin of each cell after a turn, as `origin` does.
   * @param {number} turn
   */
  origins(turn) {
    const place = this.place(turn);
    const indices = new Uint32Array(this.core + 1).fill(UNKNOWN);
    this.loaded.forEach((address, index) => (indices[address] = index));
    return new Uint32Array(this.core).map((_, address) => indices[place.origin(address)]);
  }

  /**
   * Returns the address that is executed next after a turn, or null if the battle is over.
   * @param {number} turn
   */
  head(turn) {
    const { battle } = this.place(turn);
    return turn === this.end ? null : battle.queue(battle.next)[0];
  }

  /**
   * Returns what a turn did; turns count from 1.
   * @param {number} turn
   */
  deed(turn) {
    const battle = this.place(turn - 1).battle.copy();
    return deedOf(this.mars.play(battle, 1, { records: 1, touched: 1 }));
  }

  /**
   * Yields the turns after `first`, up to `last`, that meet all conditions of the library. Each list is in order; the
   * earliest list comes first if `isForward`, otherwise the latest.
   * @param {import("./records.js").ConditionRow[]} conditions
   * @param {number} first
   * @param {number} last
   * @param {boolean} isForward
   * @returns {Generator<import("./records.js").Found[]>}
   */
  *find(conditions, first, last, isForward) {
    const parts = this.segments.flatMap((segment) => segment.run.parts(first, Math.min(segment.last, last)));
    for (const part of isForward ? parts : parts.reverse()) {
      const turns = part.last - part.mark.turn;
      yield [...foundIn(this.mars.find(part.mark, turns, conditions, turns))].filter(({ turn }) => turn > first);
    }
  }

  /**
   * Returns the first turn later than `turn` that changed a cell, or null if there is none. An edit counts as a part of
   * the turn after which it is made.
   * @param {number} address
   * @param {number} turn
   */
  nextChange(address, turn) {
    for (const { run, last } of this.segments) {
      if (run.first > turn && run.start.written(address) === run.first) return run.first;
      // Each mark has the cell's last change, so the wanted change is before the first mark with one after `turn`.
      const places = [...run.marks, run.ending];
      const index = places.findIndex((place) => place.written(address) > turn);
      if (index < 1) continue;
      const [from, to] = [places[index - 1], places[index]].map((place) => place.turn);
      const condition = /** @type {const} */ ([CHANGES, NUMBER_ADDRESS, address, address]);
      for (const [found] of this.find([condition], Math.max(turn, from), Math.min(to, last), true)) {
        if (found) return found.turn;
      }
    }
    return null;
  }

  /**
   * Returns the last change of a cell by an edit up to a turn, or null: the turn after which it was made, and the words
   * of the cell before and after.
   * @param {number} address
   * @param {number} turn
   */
  byHand(address, turn) {
    for (const [index, { run }] of [...this.segments.entries()].slice(1).reverse()) {
      if (run.first > turn) continue;
      const earlier = this.segments[index - 1].run.mark(run.first).copy().playTo(this.mars, run.first);
      const change = { address, before: earlier.cell(address), after: run.start.cell(address) };
      if (isChanged(change)) return { turn: run.first, before: change.before, after: change.after };
    }
    return null;
  }

  /**
   * Returns the history in which an edit changes the battle after a turn. Throws a MarsError if the edit is impossible.
   * @param {number} turn
   * @param {Edit} edit
   */
  edited(turn, edit) {
    const place = this.place(turn).copy();
    const before = place.battle.cells.slice();
    const dead = place.battle.deaths.length;
    if (edit.kind === "cell") {
      const { address, last, cell } = edit;
      this.mars.edit(place.battle, { kind: "cell", address, cell });
      for (let at = address + 1; at <= last; at++) writeCell(place.battle.cells, at, cell);
    } else this.mars.edit(place.battle, edit);
    place.noteEdit(before);
    const run = new Run(this.mars, place, { edit, dead });
    const started = this.segments.filter((one) => one.run.first <= turn);
    const earlier = started.map((one) => ({ ...one, last: Math.min(one.last, turn) }));
    return new History(this.mars, this.match, this.loaded, [...earlier, { run, last: run.ending.turn }]);
  }

  /**
   * Returns samples of the turns from one to another.
   * @param {number} first
   * @param {number} last
   * @returns {Overview}
   */
  overview(first, last) {
    let place = this.place(first).copy();
    const sampler = new Sampler(place, Math.max(1, Math.ceil((last - first) / STEPS)));
    for (const { run, last: end } of this.segments) {
      if (end <= place.turn || run.first >= last) continue;
      // After an edit the battle is another one.
      if (run.first > first) place = run.start.copy();
      sampler.playTo(this.mars, place, Math.min(end, last));
    }
    return sampler.overview;
  }

  /**
   * Reads the next part of the story. Returns false if none was left to read.
   * @returns {boolean}
   */
  readStory() {
    const story = this.segments.map(({ run }) => run.story).find((one) => !one.isRead);
    story?.read();
    return story !== undefined;
  }

  /**
   * The story of the battle, as far as it has been read, in the order of turns.
   * @returns {Event[]}
   */
  get events() {
    /** @type {Event[]} */
    const found = [];
    for (const { run, last } of this.segments) {
      for (const event of run.story.events.filter(({ turn }) => turn <= last)) {
        const { kind, warrior, other } = event;
        const isNew = found.every((one) => one.kind !== kind || one.warrior !== warrior || one.other !== other);
        if (isNew) found.push(event);
      }
    }
    found.push(...this.#peaks(), ...this.deaths);
    for (const { turn, edit } of this.edits) {
      found.push({ ...EVENT, turn, kind: "edit", address: edit.kind === "kill" ? -1 : edit.address });
    }
    found.sort((one, other) => one.turn - other.turn);
    return [EVENT, ...found, { ...EVENT, kind: "end", turn: this.end }];
  }

  /**
   * Returns an event for each warrior that has had more than two processes: the turn in which it had the most of them.
   * There is none if an edit cut that turn off.
   * @returns {Event[]}
   */
  #peaks() {
    return this.order.flatMap((_, warrior) => {
      const peaks = this.segments.map(({ run, last }) => {
        const { count, turn } = run.story.peaks[warrior];
        return { count, turn, isKept: turn <= last };
      });
      const { turn, count, isKept } = peaks.reduce((best, peak) => (peak.count > best.count ? peak : best));
      return isKept && count > 2 ? { ...EVENT, turn, kind: /** @type {const} */ ("most"), warrior, count } : [];
    });
  }
}

/**
 * Returns which source each warrior is, in the order of their turns.
 * @param {Match} match
 */
function orderOf({ warriors, round }) {
  return warriors.map((_, warrior) => (warrior + round) % warriors.length);
}

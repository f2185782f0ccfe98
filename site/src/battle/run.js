/** A run of a battle: marks at regular distances, from which the battle after any turn is played. */
import { MarsBattle } from "../model/layout.js";
import { MAX_TURNS } from "../model/settings.js";
import { EVENTS, by, foundIn } from "./records.js";
import { EVENT, Story } from "./story.js";

/** @typedef {import("../engine/mars.js").Mars} Mars */
/** @typedef {import("../model/fight.js").Edit} Edit */
/** @typedef {import("./place.js").Place} Place */
/** @typedef {import("./story.js").Event} Event */

/** The least distance of marks, in turns. */
const STRIDE = 16_384;
/** The most bytes that all marks of a run take. */
const MAX_MARK_BYTES = 76 << 20;
const TOO_LONG = `The battle is too long: the site shows at most ${MAX_TURNS.toLocaleString("en")} turns.`;

/**
 * Returns an upper bound of the number of turns that a battle has left, which is close if no warrior dies. Throws an
 * error if the battle has more than MAX_TURNS turns.
 * @param {Mars} mars
 * @param {Place} place
 */
function mostTurns(mars, { battle }) {
  const living = battle.warriors - battle.deaths.length;
  const most = living * (battle.field(MarsBattle.cycles) - battle.cycle);
  if (battle.turns + most <= MAX_TURNS) return most;
  // A battle that is too long is rejected soon: playing it without pasts takes a small part of the time.
  const trial = battle.copy();
  mars.play(trial, MAX_TURNS - trial.turns);
  if (!trial.over) throw new Error(TOO_LONG);
  return trial.turns - battle.turns;
}

/**
 * Returns the distance between the marks of a run, in turns: the least power of two, from STRIDE on, with which the
 * marks take at most MAX_MARK_BYTES, if a single one takes no more.
 * @param {Place} place
 * @param {number} turns the number of turns of the run
 */
function strideOf(place, turns) {
  const most = Math.max(1, Math.floor(MAX_MARK_BYTES / place.bytes));
  let stride = STRIDE;
  while (Math.ceil(turns / stride) > most) stride *= 2;
  return stride;
}

/** A battle from its start, or from an edit, to its end. */
export class Run {
  /**
   * Plays a battle to its end. Throws an error if it has too many turns.
   * @param {Mars} mars
   * @param {Place} place its start, which is moved to the end
   * @param {{edit: Edit | null, dead: number}} before the edit at the start, and the number of deaths before it
   */
  constructor(mars, place, { edit, dead } = { edit: null, dead: 0 }) {
    this.mars = mars;
    this.first = place.turn;
    this.edit = edit;
    this.stride = strideOf(place, mostTurns(mars, place));
    /** @type {Place[]} */
    this.marks = [];
    do {
      this.marks.push(place.copy());
      place.playTo(mars, place.turn + this.stride);
    } while (!place.battle.over);
    this.ending = place;
    this.deaths = place.battle.deaths.slice(dead).map((death) => this.#death(death));
    this.story = new Story(this);
  }

  get start() {
    return this.marks[0];
  }

  /**
   * Returns the last mark up to a turn.
   * @param {number} turn
   */
  mark(turn) {
    return this.marks[Math.min(Math.floor((turn - this.first) / this.stride), this.marks.length - 1)];
  }

  /**
   * Returns the marks from which the turns after `first` up to `last` are played, each with the last turn to play.
   * @param {number} first
   * @param {number} last
   */
  parts(first, last) {
    const ends = [...this.marks.slice(1), this.ending].map(({ turn }) => Math.min(turn, last));
    const parts = this.marks.map((mark, index) => ({ mark, last: ends[index] }));
    return parts.filter((part) => part.last > first && part.last > part.mark.turn);
  }

  /**
   * Returns the event of a death, with the cell on which the warrior died.
   * @param {{warrior: number, turns: number}} death
   * @returns {Event}
   */
  #death({ warrior, turns: turn }) {
    const event = { ...EVENT, turn, kind: /** @type {const} */ ("death"), warrior };
    // A warrior that an edit killed died on no cell.
    if (this.start.battle.deaths.some((one) => one.warrior === warrior)) return event;
    const mark = this.mark(turn - 1);
    const [found] = foundIn(this.mars.find(mark, turn - mark.turn, [EVENTS.dies, by(warrior)], 1));
    return { ...event, other: found.owner, address: found.address, count: found.written };
  }
}

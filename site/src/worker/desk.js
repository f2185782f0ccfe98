/** The battle that the page shows, with all its futures, and the answers to the page's questions about it. */
import { birthsIn } from "../battle/births.js";
import { changesOf } from "../battle/changes.js";
import { completed, count, hits, search } from "../battle/conditions.js";
import { History } from "../battle/history.js";
import { Histories } from "./histories.js";
import { Painter } from "./picture.js";
import { chainOf, copiedIn } from "./why.js";
import { assembleAll, describe } from "../engine/warrior.js";

/** @typedef {import("../battle/conditions.js").Condition} Condition */
/** @typedef {import("../battle/story.js").Event} Event */
/** @typedef {import("../model/fight.js").Fight} Fight */
/**
 * A future as it is opened. Warriors are in the order of their turns; `order` says which source each is. `lines` has
 * the warrior and the line of each loaded cell, and its address; origins are indices of it. `events` has what is known
 * before the story is read.
 * @typedef {object} Opened
 * @property {number} future
 * @property {import("./histories.js").Future[]} futures all of them
 * @property {number} core
 * @property {number} end
 * @property {number[]} order
 * @property {string[]} names
 * @property {string[]} authors
 * @property {Event[]} deaths
 * @property {Event[]} events
 * @property {import("../words/battle.js").Label[]} labels
 * @property {{warrior: number, line: number, address: number}[]} lines
 * @property {import("../model/fight.js").Made[]} edits
 */
/**
 * A battle after a turn. `head` is the address that is executed next, or null at the end; `queues` has the addresses of
 * all processes, warrior by warrior, the next one first, and `processes` how many each warrior has. `owner` and
 * `written` have the owner of each cell and the turn that changed it last, `owned` the number of cells of each warrior.
 * @typedef {object} View
 * @property {number} turn
 * @property {number} cycle
 * @property {number} next
 * @property {number | null} head
 * @property {Uint32Array} cells
 * @property {Uint8Array} owner
 * @property {Uint32Array} written
 * @property {Uint32Array} queues
 * @property {number[]} processes
 * @property {number[]} owned
 */

/** About how many milliseconds a piece of a picture takes; meanwhile the worker answers no other question. */
const PIECE_TIME = 6;

export class Desk {
  /** @type {{fight: Fight, warriors: ReturnType<typeof assembleAll>, histories: Histories} | null} */
  #battle = null;
  /** @type {Painter | null} */
  #painter = null;

  /** @param {import("../engine/mars.js").Mars} mars */
  constructor(mars) {
    this.mars = mars;
  }

  /**
   * Opens a battle: future 0 without edits and one more future for each edit, of which the last is returned. If a
   * source has an error (whose `warrior` is then the index of the source), or an edit is impossible, the battle that
   * was open stays.
   * @param {Fight} fight
   */
  open(fight) {
    const warriors = assembleAll(this.mars, fight.warriors, fight.warriors.length, fight);
    const histories = new Histories(History.fight(this.mars, { ...fight, warriors }), fight.edits);
    const before = this.#battle;
    this.#battle = { fight, warriors, histories };
    try {
      return this.show(fight.edits.length);
    } catch (error) {
      this.#battle = before;
      throw error;
    }
  }

  get battle() {
    if (!this.#battle) throw new Error("no battle is open");
    return this.#battle;
  }

  /** @param {number} future */
  #history(future) {
    return this.battle.histories.of(future);
  }

  /**
   * Edits a future after a turn, and returns the future that this makes.
   * @param {number} future
   * @param {number} turn
   * @param {import("../model/fight.js").Edit} edit
   */
  edit(future, turn, edit) {
    return this.show(this.battle.histories.edit(future, turn, edit));
  }

  /**
   * Returns what a page shows of a future besides its turns.
   * @param {number} future
   * @returns {Opened}
   */
  show(future) {
    const { fight, warriors, histories } = this.battle;
    const history = histories.visit(future);
    const { core, end, order, deaths, events, edits } = history;
    const found = order.map((source) => describe(warriors[source], fight.warriors[source].text));
    const names = found.map(({ name }, who) => name || fight.warriors[order[who]].name.replace(/\.\w+$/, ""));
    return {
      ...{ future, futures: histories.futures, core, end, order, deaths, events, edits, names },
      authors: found.map(({ author }) => author),
      ...this.#lines(history),
    };
  }

  /**
   * Returns the labels of the battle, and for each origin the warrior, the line of its source, and the address.
   * @param {History} history
   */
  #lines(history) {
    /** @type {Opened["labels"]} */
    const labels = [];
    /** @type {Opened["lines"]} */
    const lines = [];
    history.order.forEach((source, warrior) => {
      const { start, lines: own } = this.battle.warriors[source];
      const first = history.start.battle.queue(warrior)[0] - start + history.core;
      own.forEach(({ line, labels: names }, index) => {
        const address = (first + index) % history.core;
        lines.push({ warrior, line, address });
        for (const name of names) labels.push({ address, name, warrior });
      });
    });
    return { labels, lines };
  }

  /**
   * Returns the battle after a turn, or at the end if it has fewer turns.
   * @param {number} future
   * @param {number} turn
   * @returns {View}
   */
  turn(future, turn) {
    const history = this.#history(future);
    const at = Math.max(0, Math.min(history.end, turn));
    const place = history.place(at);
    const { battle } = place;
    const queues = history.order.map((_, warrior) => battle.queue(warrior));
    const all = new Uint32Array(queues.reduce((sum, queue) => sum + queue.length, 0));
    queues.reduce((first, queue) => {
      all.set(queue, first);
      return first + queue.length;
    }, 0);
    return {
      turn: at,
      cycle: battle.cycle,
      next: battle.next,
      head: at === history.end ? null : queues[battle.next][0],
      // A message would copy the whole buffer of the battle, of which the cells are a view. A slice has its own buffer.
      cells: battle.cells.slice(),
      ...place.columns,
      queues: all,
      processes: place.processes,
    };
  }

  /**
   * Returns the origin of each cell after a turn, an index of `lines` of the opened future, or a number beyond it.
   * @param {number} future
   * @param {number} turn
   */
  origins(future, turn) {
    return this.#history(future).origins(turn);
  }

  /**
   * Returns what a turn did; turns count from 1.
   * @param {number} future
   * @param {number} turn
   * @returns {import("../words/battle.js").Move}
   */
  move(future, turn) {
    const history = this.#history(future);
    const { changes, touched, ...deed } = history.deed(turn);
    const { warrior, address, queued } = deed;
    const place = history.place(turn - 1);
    const left = place.processes[warrior] - 1 + queued.length;
    const writes = changes.map((change) => ({ ...change, owner: place.owner(change.address) }));
    const known = new Set([address, ...queued, ...changes.map((change) => change.address)]);
    const reads = [...new Set(touched.filter((one) => !known.has(one)))];
    const origin = history.origin(address, turn - 1);
    return { ...deed, turn, executed: place.cell(address), origin, writes, reads, left };
  }

  /**
   * Returns samples of the turns from `first` to `last`.
   * @param {number} future
   * @param {number} first
   * @param {number} last
   */
  overview(future, first, last) {
    return this.#history(future).overview(first, last);
  }

  /**
   * Reads a part of the story of a future, which plays its turns again. Returns the whole story once there is no more
   * to read, until then null.
   * @param {number} future
   */
  story(future) {
    const history = this.#history(future);
    return history.readStory() ? null : history.events;
  }

  /**
   * Paints a piece of the picture of a future, from the left.
   * @param {number} future
   * @param {import("./picture.js").Frame} frame
   * @param {number} from the first column, which follows the piece before
   */
  paint(future, frame, from) {
    if (from === 0) this.#painter = new Painter(this.#history(future), frame);
    if (!this.#painter) throw new Error("no picture is begun");
    return this.#painter.paint(PIECE_TIME);
  }

  /**
   * Returns the nearest place where one of the conditions holds, and the condition's index; null if there is none.
   * @param {number} future
   * @param {Condition[]} conditions
   * @param {number} turn
   * @param {boolean} forward whether the place is after `turn`, and not before it
   */
  search(future, conditions, turn, forward) {
    return search(this.#history(future), conditions, turn, forward);
  }

  /**
   * Returns how often a condition holds, and the first places where it does, at most `most`.
   * @param {number} future
   * @param {Condition} condition
   * @param {number} most
   */
  count(future, condition, most) {
    return count(this.#history(future), condition, most);
  }

  /**
   * Returns the address at which each warrior is loaded in a round of the match, in the order of turns in that round.
   * @param {number} round
   */
  starts(round) {
    const { order, start, core } = this.battle.histories.round(round);
    return order.map((source, who) => {
      return (start.battle.queue(who)[0] - this.battle.warriors[source].start + core) % core;
    });
  }

  /**
   * Counts as `count` in a round of the match, without edits.
   * @param {number} round
   * @param {Condition} condition
   * @param {number} most
   */
  countIn(round, condition, most) {
    return count(this.battle.histories.round(round), condition, most);
  }

  /**
   * Returns the places where one of the conditions holds, in order, at most `most`.
   * @param {number} future
   * @param {Condition[]} conditions
   * @param {number} most
   */
  hits(future, conditions, most) {
    return hits(this.#history(future), conditions, most);
  }

  /**
   * Returns the turns that led to the death of a warrior; none if it lives or an edit killed it.
   * @param {number} future
   * @param {number} warrior
   */
  why(future, warrior) {
    return chainOf(this.#history(future), warrior);
  }

  /**
   * Returns the last turn, at most `turn`, that copied to a cell the instruction that it has after `turn`; 0 if the
   * instruction was loaded or an edit set it.
   * @param {number} future
   * @param {number} address
   * @param {number} turn
   */
  copied(future, address, turn) {
    return copiedIn(this.#history(future), address, turn);
  }

  /**
   * Returns the first place at which a number of cycles is completed, or null if the battle ends before.
   * @param {number} future
   * @param {number} cycle
   */
  until(future, cycle) {
    return completed(this.#history(future), cycle);
  }

  /**
   * Returns the changes of a cell before and after a turn, as changesOf does.
   * @param {number} future
   * @param {number} address
   * @param {number} turn
   */
  cell(future, address, turn) {
    return changesOf(this.#history(future), address, turn);
  }

  /**
   * Returns the turns in which a process and its ancestors were born. Throws a MarsError if there is no such process.
   * @param {number} future
   * @param {number} turn
   * @param {number} warrior
   * @param {number} place its place in the queue of its warrior
   */
  born(future, turn, warrior, place) {
    return birthsIn(this.#history(future), turn, warrior, place);
  }

  /**
   * Assembles a line of source as a cell of this battle. Throws an Error if the line is not one valid instruction.
   * @param {string} source the line, after the lines that define its names
   * @returns {import("../model/cells.js").Cell}
   */
  cellOf(source) {
    const { fight } = this.battle;
    const terms = { ...fight, warriors: fight.warriors.length };
    const { cells } = describe(this.mars.assemble(source, terms));
    if (cells.length !== 1) throw new Error("expected one instruction");
    return cells[0];
  }

  /** Returns the bytes of the module's memory and of the marks of the futures that are kept. */
  memory() {
    return { machine: this.mars.memory, marks: this.battle.histories.bytes };
  }
}

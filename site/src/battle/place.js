/** A battle at a turn, with the past of each cell: who changed it when, and from which cell it was copied. */
import { MarsPast } from "../model/layout.js";
import { BY_HAND, CELL_WORDS, NOBODY } from "../model/cells.js";

/** @typedef {import("../engine/battle.js").Battle} Battle */
/** @typedef {import("../engine/mars.js").Mars} Mars */

const PAST_WORDS = MarsPast.size / 4;
const [OWNER, TURN, ORIGIN] = [MarsPast.owner / 4, MarsPast.turn / 4, MarsPast.origin / 4];

export class Place {
  /**
   * @param {Battle} battle
   * @param {Uint32Array} pasts words of MarsPast. An owner is a warrior, NOBODY or BY_HAND
   */
  constructor(battle, pasts) {
    this.battle = battle;
    this.pasts = pasts;
  }

  /**
   * Returns the start of a battle in which no warrior owns a cell yet. The origin of each cell is its address.
   * @param {Battle} battle
   */
  static empty(battle) {
    const pasts = new Uint32Array(PAST_WORDS * battle.core);
    for (let address = 0; address < battle.core; address++) pasts.set([NOBODY, 0, address], PAST_WORDS * address);
    return new Place(battle, pasts);
  }

  get turn() {
    return this.battle.turns;
  }

  /** The number of bytes that a copy takes. */
  get bytes() {
    return this.battle.words.byteLength + this.pasts.byteLength;
  }

  copy() {
    return new Place(this.battle.copy(), this.pasts.slice());
  }

  /**
   * Becomes a copy of another place of the same battle.
   * @param {Place} other
   */
  become(other) {
    this.battle.words.set(other.battle.words);
    this.pasts.set(other.pasts);
  }

  /**
   * Plays up to a turn.
   * @param {Mars} mars
   * @param {number} turn
   */
  playTo(mars, turn) {
    if (turn > this.turn) mars.follow(this, turn - this.turn);
    return this;
  }

  /** @param {number} address */
  owner(address) {
    return this.pasts[PAST_WORDS * address + OWNER];
  }

  /**
   * Returns the turn that changed a cell last, or 0. An edit has the number of the turn after which it was made.
   * @param {number} address
   */
  written(address) {
    return this.pasts[PAST_WORDS * address + TURN];
  }

  /**
   * Returns the address at which the instruction of a cell was at first; the core size if an edit set it.
   * @param {number} address
   */
  origin(address) {
    return this.pasts[PAST_WORDS * address + ORIGIN];
  }

  /** @param {number} address */
  cell(address) {
    return this.battle.cells.slice(CELL_WORDS * address, CELL_WORDS * (address + 1));
  }

  /**
   * Makes a warrior the owner of a cell that is loaded.
   * @param {number} address
   * @param {number} warrior
   */
  load(address, warrior) {
    this.pasts[PAST_WORDS * address + OWNER] = warrior;
  }

  /**
   * Notes which cells an edit changed.
   * @param {Uint32Array} before the words of the cells before it
   */
  noteEdit(before) {
    const { cells, core } = this.battle;
    for (let at = 0; at < cells.length; at++) {
      if (before[at] === cells[at]) continue;
      this.pasts.set([BY_HAND, this.turn, core], PAST_WORDS * Math.floor(at / CELL_WORDS));
    }
  }

  /** The number of processes of each warrior. */
  get processes() {
    return Array.from({ length: this.battle.warriors }, (_, warrior) => this.battle.queue(warrior).length);
  }

  /** The owners of all cells, the turns that changed them last, and the number of cells of each warrior. */
  get columns() {
    const { pasts } = this;
    const { core, warriors } = this.battle;
    const [owner, written, counts] = [new Uint8Array(core), new Uint32Array(core), new Uint32Array(NOBODY + 1)];
    for (let address = 0; address < core; address++) {
      const who = pasts[PAST_WORDS * address + OWNER];
      owner[address] = who;
      written[address] = pasts[PAST_WORDS * address + TURN];
      counts[who]++;
    }
    return { owner, written, owned: [...counts.subarray(0, warriors)] };
  }
}

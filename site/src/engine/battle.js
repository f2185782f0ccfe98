/** A battle as a value: a block of 32-bit words, read in place. */
import { MARK, MarsBattle, MarsDeath } from "../model/layout.js";
import { CELL_WORDS, readCell } from "../model/cells.js";

const WORD = 4;
const HEADER_WORDS = MarsBattle.size / WORD;

/**
 * A view of the words of a battle, as struct MarsBattle of mars.h describes them. It copies nothing: a
 * change of the words changes the battle, and the next call of the machine checks them.
 */
export class Battle {
  /** @param {Uint32Array} words */
  constructor(words) {
    if (words.length < HEADER_WORDS || words[0] !== MARK) throw new TypeError("the words are not a battle");
    this.words = words;
  }

  /**
   * Returns a word of the header.
   * @param {number} offset in bytes, as MarsBattle has it
   */
  field(offset) {
    return this.words[offset / WORD];
  }

  /** Number of words of the battle; those after them are not part of it. */
  get length() {
    return this.field(MarsBattle.words);
  }

  /** Number of cells of the core. */
  get core() {
    return this.field(MarsBattle.core);
  }

  /** Number of warriors, including the dead. */
  get warriors() {
    return this.field(MarsBattle.warriors);
  }

  /** Number of turns that all warriors made together. */
  get turns() {
    return this.field(MarsBattle.turns);
  }

  /** Number of completed cycles. */
  get cycle() {
    return this.field(MarsBattle.cycle);
  }

  /** The warrior whose turn is next. */
  get next() {
    return this.field(MarsBattle.next);
  }

  /** Whether no turn is left. */
  get over() {
    return this.field(MarsBattle.over) === 1;
  }

  /** The deaths in order: the warrior, and the number of turns that were made by then. */
  get deaths() {
    return Array.from({ length: this.field(MarsBattle.deaths) }, (_, index) => {
      const death = MarsBattle.death + MarsDeath.size * index;
      return { warrior: this.field(death + MarsDeath.warrior), turns: this.field(death + MarsDeath.turns) };
    });
  }

  /** The words of the cells, three to a cell. */
  get cells() {
    return this.words.subarray(HEADER_WORDS, HEADER_WORDS + CELL_WORDS * this.core);
  }

  /** @param {number} address */
  cell(address) {
    return readCell(this.cells, address);
  }

  /**
   * Returns the addresses of the processes of a warrior, the front of its queue first.
   * @param {number} warrior
   */
  queue(warrior) {
    const counts = this.words.subarray(MarsBattle.queue / WORD, MarsBattle.queue / WORD + this.warriors);
    const sum = (/** @type {Uint32Array} */ some) => some.reduce((total, count) => total + count, 0);
    const first = HEADER_WORDS + CELL_WORDS * this.core + sum(counts.subarray(0, warrior));
    return this.words.subarray(first, first + counts[warrior]);
  }

  /** Returns a copy, which later turns and edits do not change. */
  copy() {
    return new Battle(this.words.slice());
  }
}

/** A call of mars.wasm, with the memory that it takes: its arguments and results as values of JavaScript. */
import { CELL_WORDS } from "../model/cells.js";
import {
  DONE,
  OUT_OF_MEMORY,
  ROOM,
  MarsCell,
  MarsFault,
  MarsLine,
  MarsProgram,
  MarsSettings,
  MarsWarrior,
} from "../model/layout.js";
import { errorOf } from "./errors.js";

/** @typedef {import("./mars.js").Warrior} Warrior */
/** @typedef {import("./mars.js").Line} Line */
/** @typedef {(number | bigint)[]} Arguments */
/**
 * The exports of the module. Addresses and sizes are BigInt.
 * @typedef {Record<string, (...given: Arguments) => number> & {memory: WebAssembly.Memory,
 *   mars_alloc: (size: bigint) => bigint, mars_free: (block: bigint) => void,
 *   mars_words: (settings: bigint, warriors: number) => bigint}} Exports
 */

/** The number of cells for which a buffer is made first. */
const CELLS = 128;
const encoder = new TextEncoder();
const decoder = new TextDecoder();

export class Call {
  /** @type {bigint[]} */
  #blocks = [];
  /** @type {Exports} */
  #exports;

  /** @param {Exports} exports */
  constructor(exports) {
    this.#exports = exports;
  }

  /** Frees all blocks of the call. */
  end() {
    for (const block of this.#blocks) this.#exports.mars_free(block);
  }

  /**
   * Allocates a block until the end of the call. Throws a RangeError if the size is not an integer of 0 or more, and a
   * MarsError if the memory is exhausted.
   * @param {number} size in bytes
   */
  allocate(size) {
    if (!(Number.isSafeInteger(size) && size >= 0)) throw new RangeError(`expected a size of 0 or more, not ${size}`);
    const block = this.#exports.mars_alloc(BigInt(Math.max(1, size)));
    if (!block) throw errorOf(OUT_OF_MEMORY);
    this.#blocks.push(block);
    return block;
  }

  /**
   * Returns a view of the memory. This view, like those of the next two methods, is valid until the next allocation: if
   * the memory grows, it gets another buffer, and older views are empty.
   * @param {bigint} block
   * @param {number} length
   */
  words(block, length) {
    return new Uint32Array(this.#exports.memory.buffer, Number(block), length);
  }

  /**
   * @param {bigint} block
   * @param {number} length
   */
  bytesAt(block, length) {
    return new Uint8Array(this.#exports.memory.buffer, Number(block), length);
  }

  /** @param {bigint} block */
  view(block) {
    return new DataView(this.#exports.memory.buffer, Number(block));
  }

  /**
   * Copies bytes, or a text as UTF-8, into the memory; returns the arguments for them.
   * @param {string | Uint8Array} data
   * @returns {[bigint, bigint]}
   */
  bytes(data) {
    const bytes = typeof data === "string" ? encoder.encode(data) : data;
    const block = this.allocate(bytes.length);
    this.bytesAt(block, bytes.length).set(bytes);
    return [block, BigInt(bytes.length)];
  }

  /**
   * Copies words into the memory; returns their address.
   * @param {Uint32Array} words
   */
  wordsOf(words) {
    const block = this.allocate(4 * words.length);
    this.words(block, words.length).set(words);
    return block;
  }

  /**
   * Copies a battle into the memory; returns the arguments for it.
   * @param {{words: Uint32Array}} battle
   * @returns {[bigint, bigint]}
   */
  block({ words }) {
    return [this.wordsOf(words), BigInt(words.length)];
  }

  /**
   * Copies a battle and the pasts of its cells into the memory; returns the arguments for turns of it.
   * @param {import("./machine.js").Followed} followed
   * @param {number} turns
   * @returns {[bigint, bigint, number, bigint, bigint]}
   */
  followed({ battle, pasts }, turns) {
    return [...this.block(battle), turns, this.wordsOf(pasts), BigInt(battle.core)];
  }

  /**
   * Copies a battle and the pasts of its cells, as a call has left them, out of the memory.
   * @param {import("./machine.js").Followed} followed
   * @param {[bigint, bigint, number, bigint, bigint]} given what `followed` returned
   */
  takeFollowed({ battle, pasts }, [block, , , cells]) {
    battle.words.set(this.words(block, battle.words.length));
    pasts.set(this.words(cells, pasts.length));
  }

  /**
   * Copies conditions into the memory; returns the arguments for them.
   * @param {import("./machine.js").Condition[]} conditions
   * @returns {[bigint, bigint]}
   */
  conditions(conditions) {
    return [this.wordsOf(Uint32Array.from(conditions.flat())), BigInt(conditions.length)];
  }

  /**
   * Copies settings into the memory, as a MarsSettings; returns their address.
   * @param {import("../model/settings.js").Settings} settings
   * @param {{rounds?: number, seed?: number, position?: number}} terms
   */
  settings(settings, { rounds = 1, seed = 1, position = 0 }) {
    const block = this.allocate(MarsSettings.size);
    const { core, processes, cycles, readLimit, writeLimit, longest, distance } = settings;
    const fields = { core, processes, cycles, longest, distance, rounds, seed, position };
    const named = { ...fields, read_limit: readLimit, write_limit: writeLimit };
    const view = this.view(block);
    for (const [name, value] of Object.entries(named)) {
      view.setUint32(MarsSettings[/** @type {keyof typeof named} */ (name)], value, true);
    }
    return block;
  }

  /**
   * Copies warriors into the memory; returns the arguments for them.
   * @param {Warrior[]} warriors
   */
  fighters(warriors) {
    const counts = warriors.map(({ cells }) => cells.length / CELL_WORDS);
    const total = counts.reduce((sum, count) => sum + count, 0);
    const cells = this.allocate(MarsCell.size * total);
    let end = 0;
    for (const warrior of warriors) {
      this.words(cells, CELL_WORDS * total).set(warrior.cells, end);
      end += warrior.cells.length;
    }
    const places = this.allocate(MarsWarrior.size * warriors.length);
    this.words(places, 2 * warriors.length).set(warriors.flatMap(({ start }, index) => [counts[index], start]));
    return [cells, BigInt(total), places, BigInt(warriors.length)];
  }

  /**
   * Makes a call and returns its result. Throws a MarsError for each result except DONE and the allowed one.
   * @param {string} name
   * @param {Arguments} given
   */
  make(name, given, allowed = DONE) {
    const fault = this.allocate(MarsFault.size);
    const result = this.#exports[name](...given, fault);
    if (result === DONE || result === allowed) return result;
    const view = this.view(fault);
    const word = (/** @type {number} */ offset) => view.getUint32(offset, true);
    const long = (/** @type {number} */ offset) => Number(view.getBigUint64(offset, true));
    throw errorOf(result, {
      number: word(MarsFault.number),
      problem: word(MarsFault.problem),
      expression: word(MarsFault.expression),
      line: long(MarsFault.line),
      warrior: long(MarsFault.warrior),
      begin: long(MarsFault.begin),
      end: long(MarsFault.end),
    });
  }

  /**
   * Makes a call that writes a program, again with larger buffers if the first ones are too short. If `room` is not 0,
   * the call also writes the lines of the cells, with their labels.
   * @param {string} name
   * @param {Arguments} given
   * @param {number} room the number of bytes for labels in the first buffer
   * @returns {{warrior: Warrior, lines: Line[]}}
   */
  program(name, given, room = 0) {
    const [program, length] = [this.allocate(MarsProgram.size), this.allocate(8)];
    const write = (/** @type {number} */ count, /** @type {number} */ size, allowed = DONE) => {
      const sizes = [MarsCell.size * count, MarsLine.size * count, size];
      const [cells, lines, labels] = sizes.map((bytes) => this.allocate(bytes));
      const mapped = room ? [lines, BigInt(count), labels, BigInt(size), length] : [];
      const result = this.make(name, [...given, cells, BigInt(count), program, ...mapped], allowed);
      return { cells, lines, labels, result };
    };
    let written = write(CELLS, room, ROOM);
    const [count, start] = this.words(program, 2);
    const size = room ? this.#lengthAt(length) : 0;
    if (written.result === ROOM) written = write(count, size);
    const bytes = this.bytesAt(program, MarsProgram.size);
    const [named, author] = [MarsProgram.name, MarsProgram.author].map((at) => {
      const field = bytes.slice(at, at + 64);
      return decoder.decode(field.subarray(0, field.indexOf(0)));
    });
    const cells = this.words(written.cells, CELL_WORDS * count).slice();
    const labels = decoder.decode(this.bytesAt(written.labels, size));
    const lines = room ? this.#linesAt(written.lines, count, labels) : [];
    return { warrior: { name: named, author, start, cells }, lines };
  }

  /**
   * Returns the lines that a call wrote.
   * @param {bigint} address
   * @param {number} count
   * @param {string} labels the labels of all lines, each with a zero character after it
   */
  #linesAt(address, count, labels) {
    const view = this.view(address);
    return Array.from({ length: count }, (_, index) => {
      const at = MarsLine.size * index;
      const fields = [MarsLine.line, MarsLine.begin, MarsLine.end];
      const [line, begin, end] = fields.map((field) => Number(view.getBigUint64(at + field, true)));
      return { line, labels: labels.slice(begin, end).split("\0").slice(0, -1) };
    });
  }

  /**
   * Makes a call that writes a text, again with a larger buffer if the first one is too short. Returns the text.
   * @param {string} name
   * @param {Arguments} given
   * @param {number} size the number of bytes of the first buffer
   */
  text(name, given, size) {
    const length = this.allocate(8);
    let buffer = this.allocate(size);
    if (this.make(name, [...given, buffer, BigInt(size), length], ROOM) === ROOM) {
      const needed = this.#lengthAt(length);
      buffer = this.allocate(needed);
      this.make(name, [...given, buffer, BigInt(needed), length]);
    }
    return decoder.decode(this.bytesAt(buffer, this.#lengthAt(length)));
  }

  /**
   * Returns the length that a call wrote.
   * @param {bigint} address
   */
  #lengthAt(address) {
    return Number(this.view(address).getBigUint64(0, true));
  }
}

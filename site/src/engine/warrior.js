/** What is shown of a warrior; and how the sources of a match are assembled. */
import { CELL_WORDS, readCell } from "../model/cells.js";
import { MarsError } from "../model/errors.js";

/** @typedef {import("./mars.js").Mars} Mars */
/** @typedef {import("./mars.js").Warrior} Warrior */
/** @typedef {import("../model/settings.js").Settings} Settings */
/**
 * `name` and `author` are "" if the source gives none; `start` is the index of the first instruction.
 * @typedef {{name: string, author: string, start: number, cells: import("../model/cells.js").Cell[]}} Description
 */

/**
 * Returns what is shown of a warrior.
 * @param {Warrior} warrior
 * @param {string} [text] its source
 * @returns {Description}
 */
export function describe({ name, author, start, cells }, text = "") {
  return {
    name: name === "Unknown" ? "" : spelled(name, lastOf(text, "name")),
    author: author === "Anonymous" ? "" : spelled(author, lastOf(text, "author")),
    start,
    cells: Array.from({ length: cells.length / CELL_WORDS }, (_, index) => readCell(cells, index)),
  };
}

/**
 * Returns what the last line such as `;name Imp` of a source gives, or "".
 * @param {string} text
 * @param {"name" | "author"} word
 */
export function lastOf(text, word) {
  const lines = [...text.matchAll(new RegExp(`^\\s*;${word}\\s+(\\S.*?)\\s*$`, "gim"))];
  return lines[lines.length - 1]?.[1] ?? "";
}

/**
 * Returns a name as its source spells it: the library has a question mark for each byte that is not ASCII.
 * @param {string} name
 * @param {string} own
 */
function spelled(name, own) {
  const bytes = [...new TextEncoder().encode(own)].map((byte) => (byte < 128 ? byte : "?".charCodeAt(0)));
  return String.fromCharCode(...bytes.slice(0, name.length)) === name ? own : name;
}

/**
 * Assembles sources. An error has the index of its source as `warrior`.
 * @param {Mars} mars
 * @param {{text: string}[]} sources
 * @param {number} warriors the number of warriors of the match
 * @param {{settings: Settings, rounds: number}} terms
 */
export function assembleAll(mars, sources, warriors, { settings, rounds }) {
  return sources.map(({ text }, index) => {
    try {
      return mars.assemble(text, { settings, rounds, warriors });
    } catch (error) {
      if (error instanceof MarsError) Object.assign(error, { warrior: index });
      throw error;
    }
  });
}

/** Conditions in words. */
import TABLE from "../../../python/corewar/debugger/commands.json";
import { place, where } from "./battle.js";

/** @typedef {import("../battle/conditions.js").Condition} Condition */
/** @typedef {import("./battle.js").Known} Known */

/** Words of conditions on a warrior. */
const EVENTS = TABLE.conditions.warriors;

/**
 * Returns whether conditions ask what happened to a warrior, but not to which one.
 * @param {Condition} condition
 */
export function isOfAnyWarrior(condition) {
  const all = [];
  for (let one = /** @type {Condition | undefined} */ (condition); one; one = one.and) all.push(one);
  return all.some(({ word }) => EVENTS.includes(word)) && all.every(({ by }) => by === undefined);
}

/**
 * Returns conditions as text.
 * @param {Condition} condition
 * @param {Known} known
 * @returns {string}
 */
export function conditionWords({ word, cells, of, origin, was, becomes, by, and }, known) {
  const range = (/** @type {number[]} */ [first, last]) =>
    first === last ? where(first, known) : `${where(first, known)}..${where(last, known)}`;
  const isEvent = EVENTS.includes(word);
  const name = by === undefined ? [] : [known.names[by]];
  const parts = [
    [word, ...(cells ? [range(cells)] : []), ...(isEvent ? name : [])],
    of === undefined ? [] : ["of", known.names[of]],
    origin ? ["from", range(origin)] : [],
    was ? ["was", was] : [],
    becomes ? ["becomes", becomes] : [],
    isEvent || by === undefined ? [] : ["by", ...name],
    and ? ["and", conditionWords(and, known)] : [],
  ];
  return parts.flat().join(" ");
}

/**
 * Returns what has happened, or comes next, at a breakpoint.
 * @param {Condition} condition
 * @param {Known} known
 */
export function haltWords(condition, known) {
  const { word, cells, by, ...more } = condition;
  if (!cells || Object.keys(more).length) return conditionWords(condition, known);
  const [from, to] = cells.map((address) => place(address, known));
  const cell = from === to ? `cell ${from}` : `a cell from ${from} to ${to}`;
  const what = word === "at" ? "is executed next" : word === "reads" ? "was read" : "was changed";
  return `${cell} ${what}${by === undefined ? "" : ` by ${known.names[by]}`}`;
}

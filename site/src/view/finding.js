/** `find`: how often a condition holds in the battle, or in each round of the match. */
import TABLE from "../../../python/corewar/debugger/commands.json";
import { addressesOf } from "../words/battle.js";
import { conditionWords, isOfAnyWarrior } from "../words/conditions.js";
import { counted } from "../words/replies.js";
import { CommandError, readCondition } from "./arguments.js";

/** @typedef {import("../battle/conditions.js").Condition} Condition */
/** @typedef {import("./session.js").Session} Session */

/** How many turns or rounds are listed, and how many turns of each of several rounds. */
const [LISTED, LISTED_IN_ROUND] = [20, 5];
const NUMBERED = ["of", "by", ...TABLE.conditions.warriors].map((word) => `(?<= ${word} )`).join("|");
/** The cell to execute next as an address: by itself, in a range, or with an offset. */
const NEXT = /(?:^|\.\.)\.(?=$|\.\.|[+-])/;
/** The numbers of warriors in a condition. */
const WARRIORS = new RegExp(`\\b\\d+(?=\\.[A-Za-z_])|(?:${NUMBERED})\\d+(?!\\S)`, "g");

/**
 * Returns how often a condition holds, and the first places, with their warriors if the condition is on any warrior.
 * @param {{count: number, first: import("../battle/conditions.js").Held[]}} found
 * @param {Condition} condition
 * @param {string[]} names
 */
function timesOf({ count, first }, condition, names) {
  const isOpen = isOfAnyWarrior(condition);
  const turns = first.map(({ turn, warrior }) => (isOpen ? `${turn} (${names[warrior]})` : turn));
  const more = count > first.length ? ` and ${count - first.length} more` : "";
  return `${counted(count, "time")}, after turn ${turns.join(", ")}${more}`;
}

/** @type {import("./acts.js").Act} */
export async function find(session, rest, tell) {
  const [word, ...more] = rest.split(/\s+/);
  if (word === "-r") return findInRounds(session, more.join(" "), tell);
  const { known } = session;
  const condition = readCondition(session, rest);
  const found = await session.desk.count(session.future, condition, LISTED);
  return [`${conditionWords(condition, known)}: ${found.count ? timesOf(found, condition, known.names) : "never"}`];
}

/**
 * Finds a condition in each round of the match, without edits. Its names and labels are looked up in each round, in
 * which no cell is executed next.
 * @param {Session} session
 * @param {string} rest
 * @param {(progress: string) => void} tell
 */
async function findInRounds(session, rest, tell) {
  if (rest.split(/\s+/).some((word) => NEXT.test(word))) throw new CommandError(TABLE.conditions.dot);
  const { fight, desk, known } = session;
  const words = conditionWords(readCondition(session, rest), known);
  const rows = [];
  let total = 0;
  const { rounds = 0, round: here = 0 } = fight ?? {};
  for (let round = 0; round < rounds; round++) {
    tell(`searched ${round} of ${counted(rounds, "round")}`);
    const other = inRound(session, round, await desk.starts(round));
    const condition = readCondition(other, renumbered(rest, here - round, known.names.length));
    const found = await desk.countIn(round, condition, LISTED_IN_ROUND);
    if (session.fight !== fight) throw new CommandError("another battle has been opened");
    total += found.count;
    if (found.count) rows.push(`round ${round}: ${timesOf(found, condition, other.known.names)}`);
  }
  const all = counted(rounds, "round");
  if (!rows.length) return [`${words}: never in ${all}`];
  const more = rows.length > LISTED ? [`and in ${rows.length - LISTED} more rounds`] : [];
  return [`${words}: ${counted(total, "time")} in ${rows.length} of ${all}`, ...rows.slice(0, LISTED), ...more];
}

/**
 * Returns the part of a session that reading the arguments of commands needs, for another round.
 * @param {Session} session
 * @param {number} round
 * @param {number[]} starts where each warrior is loaded there
 * @returns {Session}
 */
function inRound({ fight, opened, known }, round, starts) {
  const order = starts.map((_, who) => (who + round) % starts.length);
  const places = (opened?.order ?? []).map((source) => order.indexOf(source));
  const firsts = places.map((_, who) => opened?.lines.find(({ warrior }) => warrior === who)?.address ?? 0);
  const labels = (opened?.labels ?? []).map(({ name, address, warrior }) => {
    const moved = (address - firsts[warrior] + starts[places[warrior]] + known.core) % known.core;
    return { name, warrior: places[warrior], address: moved };
  });
  const names = order.map((source) => known.names[opened?.order.indexOf(source) ?? 0]);
  const there = { ...known, names, addresses: addressesOf(labels) };
  return /** @type {any} */ ({ known: there, view: { head: null }, opened: { order }, fight });
}

/**
 * Returns a condition with the numbers that its warriors have in another round, in which another warrior begins.
 * @param {string} text
 * @param {number} shift what is added to each number
 * @param {number} count the number of warriors
 */
const renumbered = (text, shift, count) =>
  ` ${text}`.replace(WARRIORS, (found) => {
    const number = Number(found);
    return number < count ? String((((number + shift) % count) + count) % count) : found;
  });

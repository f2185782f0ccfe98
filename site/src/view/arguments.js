/** The arguments of the debugger's commands: numbers, warriors, addresses, conditions and lines of source. */
import TABLE from "../../../python/corewar/debugger/commands.json";
import { OPCODES } from "../model/cells.js";
import { MarsError } from "../model/errors.js";
import { sharedWords } from "../words/battle.js";
import { explain } from "../words/errors.js";

/** @typedef {import("../battle/conditions.js").Condition} Condition */
/** @typedef {import("../model/fight.js").Edit} Edit */
/** @typedef {import("./session.js").Session} Session */

const WORDS = TABLE.conditions;
/** The words that can follow an argument of a condition. */
const FOLLOWING = [...WORDS.more, "and"];

/** A label in a line of source, as `bomb` or as `1.bomb`. */
const LABEL = /(?<![\w.])(?:\d+\.)?[A-Za-z_]\w*/g;

const OVER = "`.` is the cell to execute next, but the battle is over; use a number or a label";

/** A number with separators, as the page shows it. */
const SEPARATED = /\b\d{1,3}(,\d{3})+\b/g;

/** @param {string} text */
const withoutSeparators = (text) => text.replace(SEPARATED, (digits) => digits.replaceAll(",", ""));

/** Why a command was not done. */
export class CommandError extends Error {}

/**
 * Returns the number that a text states. Throws a CommandError that names what was expected.
 * @param {string} text
 * @param {string} what
 */
export function readNumber(text, what) {
  const digits = withoutSeparators(text);
  if (!/^\d{1,9}$/.test(digits)) throw new CommandError(`expected ${what}, not \`${text}\``);
  return Number(digits);
}

/**
 * Returns the warrior whose number, name or file a text is, or else the only one whose name begins so; -1 if none is.
 * @param {Session} session
 * @param {string} text
 */
function warriorOf({ known: { names }, opened, fight }, text) {
  if (/^\d+$/.test(text) && Number(text) < names.length) return Number(text);
  const exact = names.indexOf(text);
  const warrior = exact >= 0 ? exact : names.findIndex((name) => name.toLowerCase() === text.toLowerCase());
  if (warrior >= 0) return warrior;
  const files = (opened?.order ?? []).map((source) => fight?.warriors[source].name ?? "");
  const file = text ? files.findIndex((name) => name === text || name.replace(/\.\w+$/, "") === text) : -1;
  if (file >= 0) return file;
  const begins = (/** @type {string} */ name) => name.toLowerCase().startsWith(text.toLowerCase());
  return /\D/.test(text) && names.filter(begins).length === 1 ? names.findIndex(begins) : -1;
}

/**
 * Returns the warrior that a text names. Throws CommandError.
 * @param {Session} session
 * @param {string} text
 */
export function readWarrior(session, text) {
  const warrior = warriorOf(session, text);
  if (warrior >= 0) return warrior;
  const listing = session.known.names.map((name, index) => `${index} ${name}`).join(", ");
  throw new CommandError(`no warrior \`${text}\`; the warriors are ${listing}`);
}

/**
 * Returns an address: a number, a label, or `.`, the cell that is executed next, each with or without +N or -N.
 * @param {Session} session
 * @param {string} text
 */
export function readAddress({ known, view }, text) {
  const { core, addresses } = known;
  const found = /^(\.|[\w.]+?)((?:[+-]\d{1,9})*)$/.exec(withoutSeparators(text));
  const base = found?.[1] ?? "";
  if (base === "." && view?.head === null) throw new CommandError(OVER);
  const label = addresses.get(base);
  const at = base === "." ? (view?.head ?? 0) : (label ?? (/^\d{1,9}$/.test(base) ? Number(base) : core));
  const wanted = `a number below ${core}, a label or \`.\`, with or without +N or -N`;
  const why = sharedWords(base, known) || `\`${text}\` is not an address: ${wanted}`;
  if (!found || at >= core) throw new CommandError(why);
  const added = (found[2].match(/[+-]\d+/g) ?? []).reduce((sum, part) => sum + Number(part), 0);
  return (((at + added) % core) + core) % core;
}

/**
 * Returns the condition that a text states; one turn has to meet all parts that are joined by `and`.
 * @param {Session} session
 * @param {string} text
 * @returns {Condition}
 */
export function readCondition(session, text) {
  const rest = text.split(/\s+/).filter(Boolean);
  /** @type {Condition[]} */
  const found = [];
  for (let isJoined = true; rest.length; ) {
    const word = /** @type {import("../battle/conditions.js").Word} */ (rest.shift());
    if (word === /** @type {string} */ ("and") && !isJoined && rest.length) {
      isJoined = true;
      continue;
    }
    const [last] = found.slice(-1);
    if (last && WORDS.more.includes(word)) addMore(session, last, word, rest);
    else if (isJoined && (WORDS.cells.includes(word) || WORDS.warriors.includes(word))) {
      found.push({ word });
      const more = WORDS.cells.includes(word) ? "cells" : "by";
      if (hasArgument(session, word, rest)) addMore(session, found[found.length - 1], more, rest);
    } else throw new CommandError(WORDS.expected);
    isJoined = false;
  }
  if (!found.length) throw new CommandError(WORDS.expected);
  return found.reduceRight((after, one) => ({ ...one, and: after }));
}

/**
 * Returns whether an argument follows a condition's first word. In `dies of`, `of` may be the name of a warrior.
 * @param {Session} session
 * @param {string} word
 * @param {string[]} rest
 */
function hasArgument({ known }, word, rest) {
  if (!rest.length || !FOLLOWING.includes(rest[0])) return rest.length > 0;
  const isName = WORDS.warriors.includes(word) && known.names.some((name) => name.toLowerCase() === rest[0]);
  return isName && (rest.length === 1 || (rest.length > 2 && FOLLOWING.includes(rest[1])));
}

/**
 * Adds to a condition what a word says. Removes its argument from the words that are left.
 * @param {Session} session
 * @param {Condition} condition
 * @param {string} word
 * @param {string[]} rest
 */
function addMore(session, condition, word, rest) {
  const name = /** @type {keyof Condition} */ (word === "from" ? "origin" : word);
  if (!rest.length || condition[name] !== undefined) throw new CommandError(WORDS.expected);
  Object.assign(condition, { [name]: readMore(session, word, rest) });
}

/**
 * Returns the argument of a word, and removes it from the words that are left.
 * @param {Session} session
 * @param {string} word
 * @param {string[]} rest
 */
function readMore(session, word, rest) {
  if (word === "of" || word === "by") return readFirstWarrior(session, rest);
  const text = rest.shift() ?? "";
  if (word === "was" || word === "becomes") {
    const opcode = text.toUpperCase();
    if (!OPCODES.includes(opcode)) throw new CommandError(`expected an opcode, not \`${text.toLowerCase()}\``);
    return opcode;
  }
  const [from, to] = text.split("..");
  return [readAddress(session, from), readAddress(session, to || from)];
}

/**
 * Returns the warrior that as many of the first words as possible name, even if one is `and`. Removes these words.
 * @param {Session} session
 * @param {string[]} rest
 */
function readFirstWarrior(session, rest) {
  for (let count = rest.length; count > 0; count--) {
    const found = warriorOf(session, rest.slice(0, count).join(" "));
    if (found < 0) continue;
    rest.splice(0, count);
    return found;
  }
  const end = rest.findIndex((word) => FOLLOWING.includes(word));
  return readWarrior(session, rest.slice(0, end < 0 ? rest.length : end).join(" "));
}

/**
 * Splits the rest of a line into the name of a warrior and some words after it.
 * @param {Session} session
 * @param {string} rest
 * @param {number} count the number of words after the name
 * @param {string} expected the message of the CommandError if there are fewer words
 */
export function readWarriorAnd(session, rest, count, expected) {
  const words = rest.split(/\s+/);
  if (words.length <= count) throw new CommandError(expected);
  return { warrior: readWarrior(session, words.slice(0, -count).join(" ")), words: words.slice(-count) };
}

/**
 * Returns the index of a process of a warrior; the next process has index 0.
 * @param {Session} session
 * @param {number} warrior
 * @param {string} text
 */
export function readProcess({ view, known }, warrior, text) {
  const [index, count] = [readNumber(text, "the index of a process"), view?.processes[warrior] ?? 0];
  const why = `${known.names[warrior]} has no process ${index}; its number of processes is ${count}`;
  if (index >= count) throw new CommandError(why);
  return index;
}

/**
 * Returns the edit that sets cells to a line of source, which is assembled for the first of them.
 * @param {Session} session
 * @param {string} line
 * @param {number} address
 * @param {number} last
 * @returns {Promise<Edit>}
 */
export async function readCellEdit(session, line, address, last) {
  return { kind: "cell", address, last, cell: await cellOf(session, line, address) };
}

/**
 * Returns the cell of a line of Redcode for an address; labels of the warrior that was loaded there need no number.
 * Throws a CommandError if the line is not one instruction, or if it has a label of several warriors.
 * @param {Session} session
 * @param {string} text
 * @param {number} address
 */
export async function cellOf({ desk, known, opened, meanings }, text, address) {
  const own = opened?.lines.find((one) => one.address === address)?.warrior;
  const addressOf = (/** @type {string} */ name) => known.addresses.get(`${own}.${name}`) ?? known.addresses.get(name);
  const names = text.match(LABEL) ?? [];
  const plain = [...new Set(names)].filter((name) => !name.includes(".") && addressOf(name) !== undefined);
  const equates = plain.map((name) => `${name} EQU (${Number(addressOf(name)) - address})`);
  // No name in a source contains a dot.
  const line = text.replace(LABEL, (name) => {
    const at = name.includes(".") ? addressOf(name) : undefined;
    return at === undefined ? name : `(${at - address})`;
  });
  const source = [...equates, line, ""].join("\n");
  try {
    return await desk.cellOf(source);
  } catch (error) {
    const shared = names.map((name) => (addressOf(name) === undefined ? sharedWords(name, known) : ""));
    const first = shared.find(Boolean);
    if (first || !(error instanceof MarsError)) throw new CommandError(first ?? /** @type {Error} */ (error).message);
    const why = explain(error, source, meanings).text;
    throw new CommandError(`\`${text}\` is not an instruction: ${error.what}: ${why}`);
  }
}

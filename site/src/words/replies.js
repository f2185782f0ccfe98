/** What the debugger's line replies: the words of `corewar debug`, in which numbers have no separators. */
import { cellText, readCell } from "../model/cells.js";
import { joinNames, where } from "./battle.js";

/** @typedef {import("./battle.js").Known} Known */
/** @typedef {import("./battle.js").Move} Move */
/** @typedef {import("../battle/births.js").Descent} Descent */

/** The maximum number of addresses or turns that are listed. */
export const MAX_LISTED = 8;
/** The widths of the first columns of a list of cells. */
const COLUMNS = [1, 6, 10, 24];

/**
 * Returns a number with a noun, without separators.
 * @param {number} count
 * @param {string} noun
 */
export const counted = (count, noun) => `${count} ${noun}${count === 1 ? "" : noun.endsWith("s") ? "es" : "s"}`;

/**
 * @param {Uint32Array} words
 * @param {Known} known
 */
const textOf = (words, { core }) => cellText(readCell(words, 0), core);

/**
 * Returns the first ones of some texts, and how many more there are.
 * @param {string[]} texts
 * @param {string} [between]
 */
export const some = (texts, most = MAX_LISTED, between = ", ") =>
  texts.slice(0, most).join(between) + (texts.length > most ? ` and ${texts.length - most} more` : "");

/**
 * Returns which warrior executed which instruction in a turn, and what the turn read.
 * @param {Move} move
 * @param {Known} known
 */
function headWords({ turn, warrior, address, executed, reads }, known) {
  const head = `turn ${turn}: ${known.names[warrior]} at ${where(address, known)}: ${textOf(executed, known)}`;
  return reads.length ? `${head}; reads ${some(reads.map((one) => where(one, known)))}` : head;
}

/**
 * Returns the writes of a turn; writes that changed nothing come last.
 * @param {Move} move
 * @param {Known} known
 */
function writeWords({ writes }, known) {
  const rows = writes.map(({ address, before, after }) => {
    const [old, now] = [textOf(before, known), textOf(after, known)];
    const isSame = old === now;
    return { isSame, text: `${where(address, known)}: ${old}${isSame ? ", as before" : ` -> ${now}`}` };
  });
  return [...rows.filter(({ isSame }) => !isSame), ...rows.filter(({ isSame }) => isSame)].map(({ text }) => text);
}

/**
 * Returns a turn in one line.
 * @param {Move} move
 * @param {Known} known
 */
export function turnWords(move, known) {
  const { queued, left } = move;
  const cells = queued.map((address) => where(address, known));
  const ends = left ? `its process dies, ${left} left` : "the warrior dies";
  const after = cells.length ? `then at ${cells.join(" and ")}` : ends;
  return [headWords(move, known), ...writeWords(move, known), after].join("; ");
}

/**
 * Returns a turn, and each of its writes in a line of its own.
 * @param {Move} move
 * @param {Known} known
 */
export const turnLines = (move, known) => [
  headWords(move, known),
  ...writeWords(move, known).map((text) => `    ${text}`),
];

/**
 * Returns the turns in which a process and its ancestors were born, the last one first.
 * @param {{index: number, warrior: number, address: number}} process
 * @param {Descent} descent
 * @param {Move[]} moves the first of these turns
 * @param {Known} known
 */
export function birthLines({ index, warrior, address }, { births, added }, moves, known) {
  const process = `Process ${index} of ${known.names[warrior]}, at ${where(address, known)},`;
  const origin = added === null ? "loaded" : `added by an edit after turn ${added}`;
  if (!births.length) return [`${process} was ${origin}.`];
  const left = births.length - moves.length;
  return [
    `${process} was born in turn ${births[0]}${births.length > 1 ? ", and its ancestors before that" : ""}:`,
    ...moves.map((move) => turnWords(move, known)),
    ...(left ? [`and ${counted(left, "earlier turn")}`] : []),
    `Its first ancestor was ${origin}.`,
  ];
}

/**
 * Returns how the battle ended.
 * @param {Known} known
 */
export function endingWords({ names, deaths }) {
  const living = names.filter((_, who) => !deaths.some(({ warrior }) => warrior === who));
  if (!living.length) return "the battle is over: no survivors";
  return `the battle is over: ${joinNames(living)} ${living.length === 1 ? "survives" : "survive"}`;
}

/**
 * Returns rows of cells as lines: the mark, the address, the label, the cell, processes, and the line of source. If
 * they would be longer than a width, columns are as narrow as they can be, and sources are cut.
 * @param {string[][]} rows
 * @param {number} width in characters, or 0 for no limit
 */
export function columnsOf(rows, width) {
  const narrow = (rows[0] ?? [""]).map((_, at) => Math.max(...rows.map((row) => row[at].length)));
  const longest = narrow.pop() ?? 0;
  const lengthOf = (/** @type {number[]} */ sizes) => sizes.reduce((sum, size) => sum + size + 1, 0);
  const wide = [...COLUMNS, ...narrow.slice(COLUMNS.length)];
  const sizes = width && lengthOf(wide) + longest > width ? narrow : wide;
  const room = width - lengthOf(sizes);
  return rows.map((row) => {
    const cells = sizes.map((size, at) => (at === 1 ? row[at].padStart(size) : row[at].padEnd(size)));
    const source = row[row.length - 1];
    const shown = !width || source.length <= room ? source : room > 2 ? `${source.slice(0, room - 2)}..` : "";
    return [...cells, shown].join(" ").trimEnd();
  });
}

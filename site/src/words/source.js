/** Splits sources, without assembling them, into lines with labels, operation and operands, EQU names and loops. */
import { OPCODES as KNOWN } from "../model/cells.js";

/** @typedef {import("./causes.js").Cause} Cause */
/**
 * A line. `unread` is why it is not read, and `skipped` whether it is in a loop whose count is 0.
 * @typedef {{number: number, text: string, labels: string[], operation: string, rest: string[],
 *   unread: Cause | null, skipped: boolean}} Line
 */
/**
 * A loop: the line of its FOR, its counter or "", and the number of the line of its ROF.
 * @typedef {{head: Line, counter: string, last: number}} Loop
 */
/** @typedef {{lines: Line[], equates: Map<string, Line>, loops: Loop[]}} Source */

export const OPCODES = [...KNOWN, "CMP"];
export const DIRECTIVES = ["FOR", "ROF", "EQU", "ORG", "END"];
export const OPERATIONS = [...OPCODES, ...DIRECTIVES];
/** A name with its joins, a number, or punctuation, even if Redcode has no such token. */
const TOKEN = /(?:\w|&(?=[A-Za-z_]))+|==|!=|<=|>=|&&|\|\||[^\0- ]/gu;
/** A name with its joins. */
export const NAME = /^[A-Za-z_][\w&]*$/;

/**
 * Returns a line without its comment.
 * @param {string} text
 */
export const codeOf = (text) => text.split(";")[0];

/** @param {string} text */
export const tokensOf = (text) => text.match(TOKEN) ?? [];

/**
 * Returns the operation of a line in capital letters, or "".
 * @param {Line} line
 */
export const wordOf = ({ operation }) => operation.toUpperCase();

/**
 * Returns the tokens of the operands of a line, or of an assert.
 * @param {Line} line
 */
export function operandsOf({ text, rest }) {
  if (/^\s*;assert\b/i.test(text)) return tokensOf(text.split(";")[1]).slice(1);
  return rest[0] === "." ? rest.slice(2) : rest;
}

/**
 * Splits a line: words are labels until one is an operation, which may be an EQU name.
 * @param {number} number
 * @param {string} text
 * @param {Map<string, Line>} names
 * @returns {Line}
 */
function parseLine(number, text, names) {
  const tokens = tokensOf(codeOf(text));
  /** @type {string[]} */
  const labels = [];
  let [operation, at] = ["", 0];
  while (at < tokens.length && NAME.test(tokens[at])) {
    const [word, following = ""] = tokens.slice(at++, at + 1);
    const isOperation = OPERATIONS.includes(word.toUpperCase()) || names.has(word);
    // An opcode before EQU or FOR is a name, but after a name EQU is the operation, whatever its text begins with.
    const isName = ["EQU", "FOR"].includes(following.toUpperCase());
    if (isOperation && (!isName || (word.toUpperCase() === "EQU" && labels.length > 0))) {
      operation = word;
      break;
    }
    labels.push(word);
    if (following === ":") at++;
  }
  return { number, text, labels, operation, rest: tokens.slice(at), unread: null, skipped: false };
}

/**
 * Splits a source into lines. A loop is read once, whatever its count is.
 * @param {string} text
 * @returns {Source}
 */
export function readSource(text) {
  const texts = text.replace(/\n$/, "").split("\n").map((line) => line.replace(/\r+$/, ""));
  const first = texts.findIndex((line) => /^\s*;redcode/i.test(line)) + 1;
  /** @type {Source} */
  const source = { lines: [], equates: new Map(), loops: [] };
  /** @type {Loop[]} */
  const open = [];
  // The line of END, and the number of open loops whose count is 0.
  let [end, zeros] = [0, 0];
  const isZero = (/** @type {Line} */ { rest }) => rest.join(" ") === "0";
  texts.forEach((one, index) => {
    const line = parseLine(index + 1, one, source.equates);
    const word = wordOf(line);
    source.lines.push(line);
    line.skipped = zeros > 0;
    if (line.number < first) line.unread = { cause: "before redcode", line: first };
    else if (end) line.unread = { cause: "after end", line: end };
    else if (word === "END") end = line.number;
    // In a loop that is skipped, FOR and ROF count only as the first or second word.
    else if (line.skipped && (!["FOR", "ROF"].includes(word) || line.labels.length > 1)) return;
    else if (word === "EQU" && line.labels.length) {
      const name = line.labels[line.labels.length - 1];
      if (!source.equates.has(name)) source.equates.set(name, line);
    } else if (word === "FOR") {
      const loop = { head: line, counter: line.labels.at(-1) ?? "", last: texts.length + 1 };
      open.push(loop);
      source.loops.push(loop);
      if (isZero(line)) zeros++;
    } else if (word === "ROF" && open.length) {
      const loop = /** @type {Loop} */ (open.pop());
      if (isZero(loop.head)) zeros--;
      loop.last = line.number;
    }
  });
  return source;
}

/**
 * Returns the first line of each label.
 * @param {Source} source
 */
export function labelsOf({ lines }) {
  /** @type {Map<string, Line>} */
  const found = new Map();
  for (const line of lines) {
    if (line.unread || line.skipped || ["EQU", "FOR"].includes(wordOf(line))) continue;
    for (const label of line.labels) if (!found.has(label)) found.set(label, line);
  }
  return found;
}

/**
 * Returns the loops around a line, from the outermost one.
 * @param {Source} source
 * @param {number} number
 */
export const loopsAround = ({ loops }, number) =>
  loops.filter(({ head, last }) => head.number < number && number < last);

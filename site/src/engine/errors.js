/** The texts of errors of the library, as `mars` and the Python package write them. */
import { ASSEMBLY, BLOCK, EDIT, ERROR_NAMES, FORMULA, LINEUP, LOAD, RESULTS, SCORE, WARRIOR } from "../model/layout.js";
import { MarsError } from "../model/errors.js";

/** @typedef {import("../model/errors.js").Numbers} Numbers */

/** @type {Record<string, Record<number, string>>} */
const NAMES = ERROR_NAMES;

/**
 * Returns an error, with its text.
 * @param {number} code
 * @param {Partial<Numbers>} [details]
 */
export function errorOf(code, details) {
  const numbers = { code, number: 0, problem: 0, expression: 0, line: 0, warrior: 0, begin: 0, end: 0, ...details };
  return new MarsError(errorText(numbers), numbers);
}

/**
 * Returns the text of an error, after its line or its index if it has one, such as `line 2: 2 Operation`.
 * @param {Numbers} error
 */
export function errorText(error) {
  const { code, line, warrior } = error;
  if (code === ASSEMBLY || code === LOAD) return `line ${line}: ${errorName(error)}`;
  return code === WARRIOR || code === LINEUP ? `index ${warrior}: ${errorName(error)}` : errorName(error);
}

/**
 * Returns the text of an error without its line or index, such as `refused 2 Address`.
 * @param {Numbers} error
 */
function errorName({ code, number, problem, expression }) {
  const result = RESULTS[code];
  const kind = code === EDIT ? "refused" : result.toLowerCase().replaceAll("_", " ");
  const head = [code !== ASSEMBLY && kind, code === FORMULA && "1 Expression"];
  const numbers = [
    numbered(code === FORMULA || code === SCORE ? "EXPRESSION" : result, number),
    numbered(code === BLOCK ? "PARAMETERS" : "TEXT", problem),
    numbered("EXPRESSION", expression),
  ];
  return [...head, ...numbers].filter(Boolean).join(" ");
}

/**
 * Returns a number with its name, or 0 if it is 0.
 * @param {string} names
 * @param {number} number
 */
function numbered(names, number) {
  return number && `${number} ${NAMES[names]?.[number] ?? ""}`;
}

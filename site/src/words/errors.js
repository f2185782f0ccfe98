/** What an error of a source means, where it is, and what to do: the sentences of `corewar explain`. */
import { CAUSES } from "./causes.js";
import { NAME, codeOf, labelsOf, readSource, wordOf } from "./source.js";

/** @typedef {import("../model/errors.js").MarsError} MarsError */
/** @typedef {import("./causes.js").Cause} Cause */
/** @typedef {import("./causes.js").WordPlace} WordPlace */
/** @typedef {import("./source.js").Line} Line */
/** @typedef {import("./source.js").Source} Source */
/**
 * An error at some columns of a line, and its cause if that is a word in place of an operation. Lines are numbered from
 * 1, columns from 0; `to` is the column after the last one.
 * @typedef {{line: number, from: number, to: number, text: string, misspelt?: Cause}} Explained
 */
/**
 * Sentences that explain errors. Their keys are the texts of errors, the last words of errors in expressions, or the
 * names of causes.
 * @typedef {Record<string, string>} Meanings
 */

/** The maximum number of causes that are reported for an error, and of errors of a source that are looked for. */
const MAX_CAUSES = 2;
const MAX_ERRORS = 10;
/** After these errors the rest of a source cannot be read. */
const LAST = ["1 Text 9 TooLong", "7 Empty", "8 TooLong"];
const UNCLOSED = "1 Text 3 UnclosedFor";

/**
 * Returns the sentence of a cause, with what the cause names in place of the words in braces.
 * @param {Cause} given
 * @param {Meanings} meanings
 * @returns {string}
 */
function sentence({ inner, ...cause }, meanings) {
  /** @type {Record<string, unknown>} */
  const values = { ...cause, inner: inner && sentence(inner, meanings) };
  if (cause.cause === "near") {
    values.case = cause.isCase ? meanings.case : "";
    values.where = cause.line ? sentence({ cause: "where", line: cause.line }, meanings) : "";
  }
  if (cause.cause === "count") values.known = cause.isKnown ? meanings.curline : "";
  return meanings[cause.cause].replace(/\{(\w+)\}/g, (_, name) => String(values[name]));
}

/**
 * Explains an error of a source: by the causes that its text shows, or in general.
 * @param {MarsError} error
 * @param {string} text
 * @param {Meanings} meanings
 * @returns {Explained}
 */
export function explain(error, text, meanings) {
  const source = readSource(text);
  const name = error.what;
  // Only a source without instructions has an error in no line.
  const line = source.lines[name === "7 Empty" ? 0 : error.line - 1];
  const place = placeOf(text, error);
  const causes = line ? (CAUSES[name]?.(source, line, place) ?? []).slice(0, MAX_CAUSES) : [];
  let number = error.line;
  if (causes[0]?.inner && causes[0].cause === "earlier") {
    // The word is in an earlier line, which is named before the explanation.
    number = Number(causes[0].line);
    causes[0] = causes[0].inner;
  }
  let meaning = meanings[name] ?? meanings[name.split(" ").slice(-2).join(" ")] ?? name;
  if (!causes.length && place && place.number !== number) {
    // The error is in the definition of an EQU, in another line.
    number = place.number;
    if (!/^[A-Z]{2}/.test(meaning)) meaning = meaning[0].toLowerCase() + meaning.slice(1);
  }
  const explanation = causes.map((cause) => sentence(cause, meanings)).join(" ") || meaning;
  const misspelt = ["misspelt", "elsewhere"].includes(causes[0]?.cause ?? "") ? causes[0] : undefined;
  const here = place?.number === number ? place : null;
  const marked = columns(source.lines[number - 1]?.text ?? "", causes[0]?.word, here);
  return { line: number, ...marked, text: explanation, misspelt };
}

/**
 * Returns the word or sign at which the library reports an error of a source, or null. Of a character that is not ASCII
 * the library reports one byte; here it is the whole character.
 * @param {string} text
 * @param {MarsError} error
 * @returns {WordPlace | null}
 */
function placeOf(text, { begin, end }) {
  if (!end) return null;
  const [bytes, decoder] = [new TextEncoder().encode(text), new TextDecoder()];
  const before = decoder.decode(bytes.subarray(0, begin)).split("\n");
  const column = before[before.length - 1].length;
  let last = end;
  while (bytes[last] >= 0x80 && bytes[last] < 0xc0) last += 1;
  return { number: before.length, column, word: decoder.decode(bytes.subarray(begin, last)) };
}

/**
 * Returns the columns of a word in a line: of its first occurrence that ends after the start of `place`, or else of its
 * first one. Without a word, returns the columns of `place`, or else of the code of the line.
 * @param {string} text
 * @param {string | undefined} word
 * @param {WordPlace | null} place
 */
function columns(text, word, place) {
  const code = codeOf(text);
  const letters = word && NAME.test(word) ? `(?<![\\w&])${word}(?![\\w&])` : word?.replace(/\W/g, "\\$&");
  const found = letters ? [...code.matchAll(new RegExp(letters, "g"))].map(({ index = 0 }) => index) : [];
  const length = word?.length ?? 0;
  const from = found.find((first) => first + length > (place?.column ?? 0)) ?? found[0];
  if (from !== undefined) return { from, to: from + length };
  if (place) return { from: place.column, to: place.column + place.word.length };
  return { from: text.length - text.trimStart().length, to: code.trimEnd().length || text.length };
}

/**
 * Finds the errors of a source. The assembler reports the first one, so it is asked again with that line replaced.
 * @param {string} text
 * @param {Meanings} meanings
 * @param {(source: string) => Promise<MarsError | null>} assemble returns the first error
 */
export async function errorsOf(text, meanings, assemble) {
  /** @type {Explained[]} */
  const found = [];
  const source = readSource(text);
  const lines = text.split("\n");
  while (found.length < MAX_ERRORS) {
    const error = await assemble(lines.join("\n"));
    if (!error) break;
    const explained = explain(error, lines.join("\n"), meanings);
    const isNew = found.every(({ line }) => line !== explained.line);
    // A line that is still wrong after it was replaced uses names that are wrong elsewhere.
    if (isNew) found.push(explained);
    const line = source.lines[explained.line - 1];
    if (!isNew || !line || LAST.includes(error.what)) break;
    if (error.what === UNCLOSED) close(lines, source);
    const misspelt = explained.misspelt?.word ?? "";
    lines[line.number - 1] = replaced(line, source, misspelt);
    const user = source.lines[error.line - 1] ?? line;
    // The line that replaces an EQU may not be an instruction.
    if (user !== line && source.equates.has(user.operation)) lines[user.number - 1] = replaced(user, source, "");
    if (explained.misspelt?.new === "EQU") correct(lines, source, misspelt);
  }
  return found;
}

/**
 * Writes EQU in place of a misspelt one in all lines, since the names of these lines are used elsewhere.
 * @param {string[]} lines
 * @param {Source} source
 * @param {string} misspelt
 */
function correct(lines, source, misspelt) {
  for (const { number, text, labels, unread } of source.lines) {
    if (unread || !labels.slice(1).includes(misspelt)) continue;
    lines[number - 1] = codeOf(text).replace(new RegExp(`\\b${misspelt}\\b`), "EQU");
  }
}

/**
 * Closes a FOR: the line of END becomes `ROF` and `END`; without an END, `ROF` is added after the last line.
 * @param {string[]} lines
 * @param {Source} source
 */
function close(lines, source) {
  const end = source.lines.find((line) => wordOf(line) === "END" && !line.unread);
  if (end) lines.splice(end.number - 1, 1, "ROF", "END");
  else lines.push("ROF");
}

/**
 * Returns a valid line to read in place of a faulty one, such that the lines after it are read as before. Neither a
 * misspelt opcode nor the words after it are labels.
 * @param {Line} line
 * @param {Source} source
 * @param {string} misspelt
 */
function replaced(line, source, misspelt) {
  const known = new Map([...source.equates, ...labelsOf(source)]);
  const at = line.labels.indexOf(misspelt);
  // A word in the place of an operation is not a label.
  const end = line.operation || misspelt ? line.labels.length : -1;
  const labels = line.labels.slice(0, at >= 0 ? at : end);
  const own = labels.filter((name) => (known.get(name) ?? line) === line);
  const word = wordOf(line);
  // A name of another line would be an error again.
  if (word === "EQU" && own.at(-1) !== line.labels.at(-1)) return "";
  if (word === "FOR" || word === "EQU") return [...line.labels.slice(-1), word, "1"].join(" ");
  if (word === "ROF" || word === "ORG" || !codeOf(line.text).trim()) return "";
  return word === "END" ? "END" : [...own, "DAT 0, 0"].join(" ");
}

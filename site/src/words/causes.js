/** The likely causes of an error in the text of a source, the likeliest first, as `corewar explain` finds them. */
import { MODIFIERS } from "../model/cells.js";
import { like, likeness } from "./likeness.js";
import {
  NAME,
  OPCODES,
  OPERATIONS,
  codeOf,
  labelsOf,
  loopsAround,
  operandsOf,
  wordOf,
} from "./source.js";

/** @typedef {import("./source.js").Line} Line */
/** @typedef {import("./source.js").Loop} Loop */
/** @typedef {import("./source.js").Source} Source */
/**
 * A sentence by its name in the table of sentences, with what it names: `word` is what is wrong in the line, `line`
 * another line, and `inner` a sentence inside it.
 * @typedef {{cause: string, word?: string, line?: number, inner?: Cause, [name: string]: unknown}} Cause
 */
/**
 * A word or sign: the number of its line, and its first column, from 0.
 * @typedef {{number: number, column: number, word: string}} WordPlace
 */
/**
 * Finds causes of an error in a line. `place` is the word at which the library reports it, or null.
 * @typedef {(source: Source, line: Line, place: WordPlace | null) => Cause[]} Find
 */

const PREDEFINED = "CORESIZE MAXPROCESSES MAXCYCLES MAXLENGTH MINDISTANCE ROUNDS WARRIORS CURLINE VERSION".split(" ");
/** Opcodes of other dialects. */
const ELSEWHERE = "LDP STP PIN XCH PCT STS".split(" ");
/** A character that no token has. */
const FOREIGN = /[^\w\0- #$@*{}<>,.+\-/%()&|=!:]/u;
/** The greatest number that is a token. */
const MAX_NUMBER = 2n ** 63n - 1n;
const OPENING = ["#", "$", "@", "{", "}", "("];
/** How many words of a line are compared with the names of operations. */
const FIRST_WORDS = 20;

/** An opcode and a name without a space between them. */
const GLUED = new RegExp(`^(${OPCODES.join("|")})([A-Z_]\\w*)$`, "i");

/**
 * Returns whether a line seems to have a comment as other languages write it, without a semicolon.
 * @param {string} text
 */
const isComment = (text) => /\/\/|\/\*|^\s*#|,.*\w\s+#\s/.test(codeOf(text));

/**
 * Returns an opcode and a name of the source in place of a word that consists of both, as in `JMPstart`, or "".
 * @param {Source} source
 * @param {string} word
 */
function glued(source, word) {
  const [, opcode, name = ""] = GLUED.exec(word) ?? [];
  const isName = labelsOf(source).has(name) || source.equates.has(name);
  const isOperand = source.lines.some(({ rest }) => rest.includes(word));
  return isName && !isOperand ? `${opcode} ${name}` : "";
}

/**
 * Finds a word in place of an operation: a word that is similar to an operation, that lacks the space after its opcode,
 * or that is an opcode of another dialect.
 * @param {Source} source
 * @param {Line} line
 * @returns {Cause | null}
 */
export function misspelt(source, line) {
  const { lines } = source;
  if (OPERATIONS.includes(wordOf(line))) return null;
  const joint = line.labels.slice(0, FIRST_WORDS).find((word) => glued(source, word));
  if (joint) return { cause: "misspelt", word: joint, new: glued(source, joint) };
  if (!line.rest.length && !line.operation && line.labels.length < 2) return null;
  // The name of an operand is not a misspelt opcode.
  const isOperand = (/** @type {string} */ name) => lines.some(({ rest }) => rest.includes(name));
  const labels = line.labels.slice(0, FIRST_WORDS).filter((word) => !isOperand(word));
  const other = labels.find((word) => ELSEWHERE.includes(word.toUpperCase()));
  if (other) return { cause: "elsewhere", word: other };
  const meant = labels.flatMap((word) => {
    const found = like(word, OPERATIONS);
    return found ? { cause: "misspelt", word, new: found, alike: likeness(word, found) } : [];
  });
  return meant.sort((one, other) => other.alike - one.alike)[0] ?? null;
}

/** @type {Find} */
function notAscii(_, { number, text }, place) {
  if (number === 1 && /^(\xff\xfe|\xfe\xff)/.test(text)) return [{ cause: "utf16" }];
  if (number === 1 && text.startsWith("\ufeff")) return [{ cause: "mark" }];
  if (!place) return [];
  const code = /** @type {number} */ (place.word.codePointAt(0)).toString(16).toUpperCase().padStart(4, "0");
  return [{ cause: "not ascii", column: place.column + 1, word: place.word, named: `U+${code}` }];
}

/**
 * Says why a word or sign is no token, or is not allowed. It may be in the definition of an EQU that the line uses.
 * @type {Find}
 */
function badToken(source, line, place) {
  if (!place) return [];
  const [{ word, column, number }, code] = [place, codeOf(line.text)];
  const isContinued = /^[^;]*\\\s*$/.test(line.text) && line.number < source.lines.length;
  if (FOREIGN.test(word)) return [{ cause: word === "\\" && isContinued ? "backslash" : "foreign", word }];
  const [, name, value] = (word === "=" && /^\s*([A-Za-z_]\w*)\s*=\s*(\w.*)/.exec(code)) || [];
  if (name) return [{ cause: "assign", new: `${name} EQU ${value?.trimEnd()}`, word: code.trim() }];
  const [, alone] = (word === "&" && /^&(?![A-Za-z_&])(\w*)/.exec(code.slice(column))) || [];
  if (alone !== undefined) return [{ cause: "ampersand", word: alone }];
  const user = source.lines[number - 1];
  const why = wrongToken(source, user, word);
  if (!why) return [];
  return [user === line ? why : { cause: "earlier", line: number, inner: why }];
}

/**
 * Says why a token is not valid, or is not allowed in a line.
 * @param {Source} source
 * @param {Line} line
 * @param {string} word
 * @returns {Cause | undefined}
 */
function wrongToken(source, line, word) {
  const { lines, equates } = source;
  const counters = loopsAround(source, line.number).map(({ counter }) => counter);
  if (/^\d+$/.test(word)) return BigInt(word) > MAX_NUMBER ? { cause: "large", word } : undefined;
  if (/^\d/.test(word)) return { cause: "half number", word };
  const name = NAME.test(word) ? word.split("&").slice(1).find((one) => !counters.includes(one)) : undefined;
  if (name) return { cause: "not counter", word, name };
  const equate = equates.get(word);
  if (!equate || word === line.operation || equate === line) return undefined;
  const next = lines[equate.number];
  const isMore = next && wordOf(next) === "EQU" && !next.labels.length;
  return isMore ? { cause: "equ lines", word, line: equate.number } : undefined;
}

/** @type {Find} */
function badCount(_, line) {
  const isKnown = line.rest.includes("CURLINE");
  return wordOf(line) === "FOR" ? [{ cause: "count", word: line.rest.join(""), isKnown }] : [];
}

/** @type {Find} */
function operation(source, line) {
  const [, dashed] = /^\s*([A-Za-z_]\w*(?:-\w+)+):?(?=\s)/.exec(codeOf(line.text)) ?? [];
  const word = misspelt(source, line);
  const equate = source.equates.get(line.operation);
  if (isComment(line.text)) return [{ cause: "comment" }];
  if (dashed) return [{ cause: "dashed", word: dashed, new: dashed.replaceAll("-", "_") }];
  if (word) return [word];
  if (equate) return [{ cause: "equate", word: line.operation, line: equate.number }];
  if (line.rest[0] === ".") return modifier(source, line, line.rest[1] ?? "");
  const opcode = line.operation ? undefined : opcodeOf(line);
  return opcode ? [{ cause: "no opcode", word: opcode }] : [];
}

/**
 * Returns the word in the place of the opcode in a line without an opcode: the label before the first operand, which
 * may be read as a label, too. Returns undefined if it isn't clear which label that is.
 * @param {Line} line
 */
function opcodeOf({ rest: [first], labels }) {
  if (first === ",") return labels.at(-2);
  return labels.length === 1 || OPENING.includes(first) || /^\d+$/.test(first) ? labels.at(-1) : undefined;
}

/**
 * Looks in each line for an opcode that is not read as one, also before a name that the source does not have.
 * @type {Find}
 */
function empty(source) {
  return source.lines.flatMap((line) => {
    if (line.unread || line.skipped) return [];
    const [word, opcode, name] = GLUED.exec(line.labels[0] ?? "") ?? [];
    const inner = misspelt(source, line) ?? (word ? { cause: "misspelt", word, new: `${opcode} ${name}` } : null);
    return inner ? [{ cause: "earlier", line: line.number, inner }] : [];
  });
}

/**
 * Says why a line has too few or too many operands: one is the name of an EQU without a text, or the line has two
 * instructions.
 * @param {Source} source
 * @param {Line} line
 * @returns {Cause[]}
 */
function operand(source, line) {
  const labels = labelsOf(source);
  return operandsOf(line).flatMap((word) => {
    if (OPCODES.includes(word.toUpperCase()) && !labels.has(word)) return [{ cause: "opcode name", word }];
    const head = source.equates.get(word);
    const isEmpty = head && linesOf(source, head).every(({ rest }) => !rest.length);
    return isEmpty ? [{ cause: "empty equ", word, line: head.number }] : [];
  });
}

/**
 * @param {Source} source
 * @param {Line} line
 * @param {string} word
 * @returns {Cause[]}
 */
function modifier(source, { number }, word) {
  const swapped = word.replace(/[a-z]/gi, (one) => (one < "a" ? one.toLowerCase() : one.toUpperCase()));
  const loops = loopsAround(source, number).filter(({ counter }) => counter === word);
  const found = loops.map(({ head }) => ({ cause: "counter modifier", word, line: head.number, new: swapped }));
  const isUnknown = !MODIFIERS.includes(word.toUpperCase());
  return isUnknown ? [...found, { cause: "modifier", word, all: MODIFIERS.join(", ") }] : found;
}

/** @type {Find} */
function duplicate(source, line, place) {
  const word = misspelt(source, line);
  const name = place?.number === line.number ? inUse(source, line, place.word) : null;
  return [word, name].flatMap((cause) => cause ?? []);
}

/**
 * Says why a name of a line is in use already.
 * @param {Source} source
 * @param {Line} line
 * @param {string} name
 * @returns {Cause | null}
 */
function inUse(source, line, name) {
  const first = [labelsOf(source), source.equates].map((found) => found.get(name) ?? line);
  const other = first[0].number <= first[1].number ? first[0] : first[1];
  if (PREDEFINED.includes(name)) return { cause: "predefined", word: name };
  if (other.number < line.number) return taken(source, line, name, other);
  if (line.labels.filter((one) => one === name).length > 1) return { cause: "twice", word: name };
  const loops = loopsAround(source, line.number);
  return loops.length ? joined(name, loops) : null;
}

/**
 * Returns how a name in loops is made distinct: by the counters of all loops around it.
 * @param {string} name
 * @param {Loop[]} loops
 * @returns {Cause}
 */
function joined(name, loops) {
  const plain = loops.find(({ counter }) => !counter);
  if (plain) return { cause: "no counter", word: name, line: plain.head.number };
  const missing = loops.map(({ counter }) => counter).filter((one) => !name.split("&").slice(1).includes(one));
  return { cause: "joined", word: name, new: [name, ...missing].join("&") };
}

/**
 * Returns why a name of a line is already the name of an earlier line, `other`.
 * @param {Source} source
 * @param {Line} line
 * @param {string} name
 * @param {Line} other
 * @returns {Cause}
 */
function taken(source, line, name, other) {
  const equ = other.labels.slice(1).find((one) => like(one, ["EQU"]));
  // With a misspelt EQU, the text that it should name has an opcode, so the line is an instruction.
  const inner = misspelt(source, other) ?? (equ ? { cause: "misspelt", word: equ, new: "EQU" } : null);
  if (inner) return { cause: "earlier", line: other.number, inner };
  const isBefore = wordOf(line) === "EQU" && !other.operation;
  return { cause: isBefore ? "before equ" : "duplicate", word: name, line: other.number };
}

/** @type {Find} */
function syntax(source, line) {
  const tokens = operandsOf(line);
  if (isComment(line.text)) return [{ cause: "comment" }];
  if (OPCODES.includes(wordOf(line)) && OPCODES.includes(tokens[0]?.toUpperCase())) {
    return [{ cause: "opcode label", word: line.operation }];
  }
  const isWord = (/** @type {string} */ token) => /^\w/.test(token);
  const found = operand(source, line);
  const missing = tokens.slice(1).flatMap((after, index) => {
    const before = tokens[index];
    const isMissing = (before === ")" || isWord(before)) && (OPENING.includes(after) || isWord(after));
    return isMissing ? [{ cause: "comma", word: after, before, after }] : [];
  });
  found.push(...missing);
  const labels = [line.operation, ...tokens].filter((name, index) => NAME.test(name) && tokens[index] === ":");
  found.push(...labels.map((name) => ({ cause: "colon", word: `${name}:`, new: name })));
  const [opened, closed] = ["(", ")"].map((one) => tokens.filter((token) => token === one).length);
  return opened === closed ? found : [...found, { cause: "parentheses", opened, closed }];
}

/**
 * Says why a name has no value. It may be in another line, in the definition of an EQU that this line uses.
 * @type {Find}
 */
function unknown(source, { number }, place) {
  if (!place || place.word.includes("&")) return [];
  const [labels, { word, number: user }] = [labelsOf(source), place];
  if (loopsAround(source, number).some(({ counter }) => counter === word)) {
    return [{ cause: "equ counter", word, line: user }];
  }
  if (labels.has(word)) return [{ cause: "assert", word }];
  const why = undefinedName(source, word, new Map([...labels, ...source.equates]));
  return [user === number ? why : { cause: "earlier", line: user, inner: why }];
}

/**
 * Returns the lines of an EQU: the first one, and those without a name that follow.
 * @param {Source} source
 * @param {Line} head
 */
function linesOf({ lines }, head) {
  const isMore = (/** @type {Line} */ line) => wordOf(line) === "EQU" && !line.labels.length;
  const after = lines.slice(head.number).findIndex((line) => !isMore(line));
  return lines.slice(head.number - 1, after < 0 ? undefined : head.number + after);
}

/**
 * Returns why a name is undefined.
 * @param {Source} source
 * @param {string} word
 * @param {Map<string, Line>} known
 * @returns {Cause}
 */
function undefinedName({ loops, lines }, word, known) {
  const loop = loops.find(({ head }) => head.labels.includes(word));
  if (loop) return { cause: "counter", word, line: loop.head.number };
  const unread = lines.find((line) => line.unread && line.labels.includes(word));
  if (unread?.unread) return { cause: "unread", word, line: unread.number, inner: unread.unread };
  if ([...OPCODES, ...ELSEWHERE].includes(word.toUpperCase())) return { cause: "opcode name", word };
  if (word === "PSPACESIZE") return { cause: "p-space", word };
  const near = like(word, [...known.keys(), ...PREDEFINED]);
  if (near === undefined) return { cause: "undefined", word };
  const isCase = near.toLowerCase() === word.toLowerCase();
  return { cause: "near", word, new: near, isCase, line: known.get(near)?.number };
}

/**
 * The functions that look for the causes of an error, by its text.
 * @type {Record<string, Find>}
 */
export const CAUSES = {
  "1 Text 1 NotAscii": notAscii,
  "1 Text 2 BadToken": badToken,
  "1 Text 5 BadCount": badCount,
  "1 Text 7 Duplicate": duplicate,
  "2 Operation": operation,
  "3 Operand": operand,
  "4 Expression 1 Syntax": syntax,
  "4 Expression 2 Unknown": unknown,
  "7 Empty": empty,
};

/** The commands of the debugger's line that show something of a turn: each returns the lines to show. */
import { cellText, readCell } from "../model/cells.js";
import { where } from "../words/battle.js";
import { instructionWords } from "../words/instruction.js";
import * as words from "../words/replies.js";
import { linkWords } from "../words/why.js";
import { readAddress, readNumber, readProcess, readWarrior } from "./arguments.js";
import { standingOn } from "./standing.js";

/** @typedef {import("./acts.js").Act} Act */
/** @typedef {import("./session.js").Session} Session */

/** How many cells `list` shows, from an address and around each next process, and how many processes are listed. */
const [CELLS, AROUND, LISTED] = [11, 7, 20];

/**
 * Returns the text of a cell.
 * @param {Session} session
 * @param {number} address
 */
export const cellAt = ({ view, known }, address) => (view ? cellText(readCell(view.cells, address), known.core) : "");

/**
 * Returns the line of source of the instruction at an address as a comment, or "" if it is unknown. It begins with the
 * name of its warrior unless that is `warrior`, by default the warrior that was loaded at the address.
 * @param {Session} session
 * @param {number} address
 * @param {number} [warrior]
 */
function lineWords(session, address, warrior) {
  const { origins, opened, known } = session;
  const found = origins && session.lineOf(origins[address]);
  if (!found) return "";
  const owner = warrior ?? opened?.lines.find((one) => one.address === address)?.warrior;
  return `; ${found.warrior === owner ? "" : `${known.names[found.warrior]} `}${found.line}: ${found.text}`;
}

/**
 * Returns what the turn that is shown did, and what comes next.
 * @param {Session} session
 */
export function here(session) {
  const { move, known, turn } = session;
  return [...(turn > 0 && move ? [words.turnWords(move, known)] : []), nextWords(session)];
}

/** @param {Session} session */
function nextWords(session) {
  const { view, known } = session;
  if (!view || view.head === null) return words.endingWords(known);
  const next = `next: ${known.names[view.next]} at ${where(view.head, known)}: ${cellAt(session, view.head)}`;
  return `${next}    ${lineWords(session, view.head, view.next)}`.trimEnd();
}

/**
 * Returns the addresses of a warrior's processes, the next one first.
 * @param {import("../worker/desk.js").View} view
 * @param {number} warrior
 */
function queueOf({ processes, queues }, warrior) {
  const before = processes.slice(0, warrior).reduce((sum, count) => sum + count, 0);
  return queues.slice(before, before + processes[warrior]);
}

/**
 * Returns a line for each of `count` cells from `first` on, or for each cell of the core if it has fewer.
 * @param {Session} session
 * @param {number} first
 * @param {number} count
 */
function cellLines(session, first, count) {
  const { view, known } = session;
  if (!view) return [];
  const { core } = known;
  const addresses = Array.from({ length: Math.min(count, core) }, (_, at) => (first + at + core) % core);
  const wanted = new Set(addresses);
  const standing = standingOn(view, (address) => wanted.has(address));
  return words.columnsOf(
    addresses.map((address) => {
      const who = (standing.get(address) ?? []).map(({ who: warrior, many }) => {
        return known.names[warrior] + (many > 1 ? ` x ${many}` : "");
      });
      const mark = address === view.head ? ">" : " ";
      const label = known.labels.get(address) ?? "";
      return [mark, String(address), label, cellAt(session, address), who.join(", "), lineWords(session, address)];
    }),
    session.width(),
  );
}

/** @type {Act} */
export function list(session, rest) {
  const { view, known } = session;
  if (!view) return [];
  const [first, count] = rest.split(/\s+/);
  if (first) {
    const [from, to] = first.split("..");
    const address = readAddress(session, from);
    if (to) return cellLines(session, address, ((readAddress(session, to) - address + known.core) % known.core) + 1);
    return cellLines(session, address, count ? readNumber(count, "a number of cells") : CELLS);
  }
  return known.names.flatMap((name, warrior) => {
    const [next] = queueOf(view, warrior);
    return next === undefined ? [] : [`${name}:`, ...cellLines(session, next - (AROUND >> 1), AROUND)];
  });
}

/**
 * Lists processes of a warrior from the one with the index `first` on.
 * @param {Session} session
 * @param {number} warrior
 * @param {number} first
 */
function queueLines({ view, known }, warrior, first) {
  if (!view) return [];
  const [processes, end] = [queueOf(view, warrior), first + LISTED];
  const left = processes.length - end;
  const start = first ? `, from process ${first} on` : "";
  const more = left > 0 ? ` and ${left} more: \`queue ${warrior} ${end}\`` : "";
  return [`${known.names[warrior]}${start}: ${processes.slice(first, end).join(" ")}${more}`.trimEnd()];
}

/**
 * Lists processes of a warrior around one that was edited.
 * @param {Session} session
 * @param {number} warrior
 * @param {number} process
 */
export function queueAround(session, warrior, process) {
  const others = (session.view?.processes[warrior] ?? 0) - LISTED;
  return queueLines(session, warrior, Math.max(0, Math.min(process - LISTED / 2, others)));
}

/**
 * Returns the warrior that a text names, or the next one if the text names none, and as a text the index of a process
 * that follows the name, or "".
 * @param {Session} session
 * @param {string} rest
 */
function readWarriorAndIndex(session, rest) {
  const { view, known } = session;
  // The name of a warrior may end in a number.
  const isName = known.names.some((name) => name.toLowerCase() === rest.toLowerCase());
  const [, named, index] = (!isName && /^(.+) (\d+)$/.exec(rest)) || ["", rest, ""];
  return { warrior: named ? readWarrior(session, named) : (view?.next ?? 0), index };
}

/** @type {Act} */
export function queue(session, rest) {
  const { warrior, index } = readWarriorAndIndex(session, rest);
  return queueLines(session, warrior, index ? readProcess(session, warrior, index) : 0);
}

/** @type {Act} */
export async function born(session, rest) {
  const { view, known, desk, future, turn } = session;
  const { warrior, index } = readWarriorAndIndex(session, rest);
  const place = readProcess(session, warrior, index || "0");
  if (!view) return [];
  const descent = await desk.born(future, turn, warrior, place);
  const shown = descent.births.slice(0, words.MAX_LISTED);
  const moves = await Promise.all(shown.map((birth) => desk.move(future, birth)));
  return words.birthLines({ index: place, warrior, address: queueOf(view, warrior)[place] }, descent, moves, known);
}

/** @param {Session} session */
export function show({ view, known, opened, end }) {
  if (!view || !opened) return [];
  const states = known.names.map((name, warrior) => {
    const own = opened.lines.filter((one) => one.warrior === warrior);
    const death = known.deaths.find((one) => one.warrior === warrior && one.turn <= view.turn);
    const state = death ? `died in turn ${death.turn}` : words.counted(view.processes[warrior], "process");
    return `${name}: ${state}; ${words.counted(own.length, "cell")} loaded at ${own[0].address}`;
  });
  const state = view.turn === end ? "over" : `of ${end} turns`;
  return [`turn ${view.turn}, cycle ${view.cycle}, battle ${state}`, ...states];
}

/**
 * Returns one line, with the source line of a loaded cell and its warrior; no line if no cell has this origin.
 * @param {Session} session
 * @param {number} origin
 */
function sourceLines(session, origin) {
  const found = session.lineOf(origin);
  return found ? [`    line ${found.line} of ${session.known.names[found.warrior]}: ${found.text}`] : [];
}

/**
 * Returns a turn, each of its writes, and the line of source of its instruction.
 * @param {Session} session
 * @param {number} turn
 */
async function linesOf(session, turn) {
  const move = await session.desk.move(session.future, turn);
  return [...words.turnLines(move, session.known), ...sourceLines(session, move.origin)];
}

/**
 * Returns the last change of a cell, by a turn or by an edit.
 * @param {Session} session
 * @param {number} address
 */
async function changeLines(session, address) {
  const { desk, future, turn, known } = session;
  const { changes, edited } = await desk.cell(future, address, turn);
  const text = (/** @type {Uint32Array} */ cell) => cellText(readCell(cell, 0), known.core);
  if (edited) {
    return [`Cell ${address} was edited after turn ${edited.turn}: ${text(edited.before)} -> ${text(edited.after)}`];
  }
  if (!changes.length) return [`Cell ${address} has not changed since the start.`];
  const found = changes[0].turn;
  return [`Cell ${address} was last changed in turn ${found}:`, ...(await linesOf(session, found))];
}

/**
 * Returns how a cell got its value: its last change, and the turn that copied its instruction there if that was another
 * turn.
 * @param {Session} session
 * @param {number} address
 */
async function causeLines(session, address) {
  const lines = await changeLines(session, address);
  const copied = await session.desk.copied(session.future, address, session.turn);
  if (!copied || lines[0].endsWith(` in turn ${copied}:`)) return lines;
  return [...lines, `Its instruction was copied there in turn ${copied}:`, ...(await linesOf(session, copied))];
}

/** @type {Act} */
export async function why(session, rest) {
  const { desk, future, known, turn, view } = session;
  const died = known.deaths.find((one) => one.turn === turn)?.warrior;
  const warrior = rest ? readWarrior(session, rest) : died;
  if (warrior === undefined) {
    return [nextWords(session), ...(view?.head === null || !view ? [] : await causeLines(session, view.head))];
  }
  const death = known.deaths.find((one) => one.warrior === warrior);
  if (!death) return [`${known.names[warrior]} survives`];
  const links = await desk.why(future, warrior);
  if (death.address < 0) return [`${known.names[warrior]} was killed by an edit after turn ${death.turn}.`];
  const turns = links.flatMap((link) => {
    return [`turn ${link.turn}: ${linkWords(link, known)}`, ...sourceLines(session, link.origin)];
  });
  return [`${known.names[warrior]} died in turn ${death.turn}:`, ...turns];
}

/** @type {Act} */
export function explain(session, rest) {
  const { view, known } = session;
  const address = readAddress(session, rest || ".");
  if (!view) return [];
  const name = (/** @type {number} */ named) => known.labels.get(named) ?? "";
  const sentence = instructionWords(readCell(view.cells, address), { core: known.core, address, name });
  return [`${where(address, known)}: ${cellAt(session, address)}`, sentence];
}

/** @type {Act} */
export const changed = (session, rest) => changeLines(session, readAddress(session, rest));

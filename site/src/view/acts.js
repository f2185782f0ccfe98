/** What the commands of the debugger's line do: each returns the lines to show. */
import { editText } from "../model/fight.js";
import { where } from "../words/battle.js";
import { conditionWords } from "../words/conditions.js";
import { counted } from "../words/replies.js";
import {
  CommandError,
  readAddress,
  readCellEdit,
  readCondition,
  readNumber,
  readProcess,
  readWarrior,
  readWarriorAnd,
} from "./arguments.js";
import { find } from "./finding.js";
import { born, cellAt, changed, explain, here, list, queue, queueAround, show, why } from "./looks.js";

/** @typedef {import("../battle/conditions.js").Condition} Condition */
/** @typedef {import("../model/fight.js").Edit} Edit */
/** @typedef {import("./session.js").Session} Session */
/** @typedef {(session: Session, rest: string, tell: (progress: string) => void) => Promise<string[]> | string[]} Act */

const NO_BREAK = "no breakpoint is set; use `break CONDITION` or add a condition to this command";

/**
 * Steps a number of turns, or to the next turn of a warrior, forwards or backwards.
 * @param {Session} session
 * @param {string} rest
 * @param {1 | -1} sign
 */
async function step(session, rest, sign) {
  if (!rest || /^\d+$/.test(rest)) {
    await session.jump(session.turn + sign * readNumber(rest || "1", "a number of turns"));
  } else {
    const warrior = readWarrior(session, rest);
    const found = await session.leap([{ word: "moves", by: warrior }], sign > 0);
    const when = `${sign > 0 ? "after" : "before"} turn ${session.turn}`;
    if (!found) throw new CommandError(`${session.known.names[warrior]} has no turn ${when}`);
  }
  return here(session);
}

/**
 * Goes to the nearest place where a condition holds, or where one of the breakpoints does if no condition is given.
 * @param {Session} session
 * @param {string} rest
 * @param {boolean} forward
 */
async function search(session, rest, forward) {
  const conditions = rest ? [readCondition(session, rest)] : session.breaks.all;
  if (!conditions.length) throw new CommandError(NO_BREAK);
  const found = await session.leap(conditions, forward);
  if (!found) throw new CommandError(`not found ${forward ? "after" : "before"} turn ${session.turn}`);
  return [`${conditionWords(conditions[found.index], session.known)}:`, ...here(session)];
}

/**
 * @param {Session} session
 * @param {string} text
 */
function readTurn(session, text) {
  if (text === "start") return 0;
  if (text === "end") return session.end;
  if (/^[+-]\d{1,9}$/.test(text)) return session.turn + Number(text);
  return readNumber(text, "a turn, `start`, `end`, +N or -N");
}

/** @type {Act} */
async function goto(session, rest) {
  const turn = readTurn(session, rest);
  if (turn < 0 || turn > session.end) throw new CommandError(`the battle has turns 0 to ${session.end}`);
  await session.jump(turn);
  return here(session);
}

/** @type {Act} */
async function until(session, rest) {
  const cycle = readNumber(rest, "a number of cycles");
  const done = `cycle ${cycle} is already completed in turn ${session.turn}; use \`goto\` with an earlier turn`;
  if ((session.view?.cycle ?? 0) >= cycle) throw new CommandError(done);
  const turn = await session.desk.until(session.future, cycle);
  if (turn === null) throw new CommandError(`the battle ends before cycle ${cycle} is completed`);
  await session.jump(turn);
  return here(session);
}

/** @param {Session} session */
function listBreaks({ breaks: { all, numbers }, known }) {
  if (!all.length) return ["no breakpoint is set"];
  return all.map((one, index) => `breakpoint ${numbers[index]}: ${conditionWords(one, known)}`);
}

/** @type {Act} */
function setBreak(session, rest) {
  if (rest) session.breaks.set([...session.breaks.all, readCondition(session, rest)]);
  return listBreaks(session);
}

/** @type {Act} */
function deleteBreak(session, rest) {
  const { breaks } = session;
  const index = /^\d+$/.test(rest) ? breaks.numbers.indexOf(Number(rest)) : -1;
  if (rest !== "all" && index < 0) {
    throw new CommandError(`no breakpoint \`${rest}\`; expected a number or \`all\``);
  }
  breaks.set(rest === "all" ? [] : breaks.all.filter((_, at) => at !== index));
  return breaks.all.length ? listBreaks(session) : ["all breakpoints are deleted"];
}

/**
 * Makes an edit. Throws CommandError if the machine refuses it.
 * @param {Session} session
 * @param {Edit | Promise<Edit>} edit
 */
async function makeEdit(session, edit) {
  const why = await session.edit(edit).then(() => "", (/** @type {Error} */ { message }) => message);
  if (why) throw new CommandError(`\`${editText(await edit, session.known.core)}\`: ${why}`);
}

/** @type {Act} */
async function edit(session, rest) {
  const [first, ...line] = rest.split(/\s+/);
  if (!line.length) throw new CommandError("expected an address and a line of source");
  const address = readAddress(session, first);
  const old = cellAt(session, address);
  await makeEdit(session, readCellEdit(session, line.join(" "), address, address));
  return [`${where(address, session.known)}: ${old} -> ${cellAt(session, address)}`];
}

/** @type {Act} */
async function fill(session, rest) {
  const [from, to, ...line] = rest.replace(/^(\S+?)\.\./, "$1 ").split(/\s+/);
  if (!line.length) throw new CommandError("expected two addresses and a line of source");
  const [address, last] = [readAddress(session, from), readAddress(session, to)];
  if (last < address) throw new CommandError(`cannot fill ${address} to ${last}: the first address is above the last`);
  await makeEdit(session, readCellEdit(session, line.join(" "), address, last));
  return [`${address} to ${last}: ${cellAt(session, address)}`];
}

/** @type {Act} */
async function move(session, rest) {
  const expected = "expected a warrior, the index of a process and an address";
  const { warrior, words } = readWarriorAnd(session, rest, 2, expected);
  const place = readProcess(session, warrior, words[0]);
  await makeEdit(session, { kind: "move", warrior, place, address: readAddress(session, words[1]) });
  return queueAround(session, warrior, place);
}

/** @type {Act} */
async function kill(session, rest) {
  const { warrior, words } = readWarriorAnd(session, rest, 1, "expected a warrior and the index of a process");
  const place = readProcess(session, warrior, words[0]);
  await makeEdit(session, { kind: "kill", warrior, place });
  return queueAround(session, warrior, place);
}

/** @type {Act} */
async function spawn(session, rest) {
  const { warrior, words } = readWarriorAnd(session, rest, 1, "expected a warrior and an address");
  const address = readAddress(session, words[0]);
  const count = session.view?.processes[warrior] ?? 0;
  const isFull = count >= (session.fight?.settings.processes ?? 0);
  const why = isFull ? `has ${counted(count, "process")}, the maximum` : "is dead";
  if (!count || isFull) throw new CommandError(`cannot add a process: ${session.known.names[warrior]} ${why}`);
  await makeEdit(session, { kind: "add", warrior, address });
  return queueAround(session, warrior, count);
}

/**
 * Undoes or redoes an edit, and says which future this leads to.
 * @param {Session} session
 * @param {"undo" | "redo"} act
 */
async function retrace(session, act) {
  const before = session.future;
  await session[act]();
  if (session.future === before) throw new CommandError(`nothing to ${act}`);
  return [`now in future ${session.future}: ${editsWords(session, session.future)}`, ...here(session)];
}

/**
 * Returns the edits of a future as text.
 * @param {Session} session
 * @param {number} future
 */
function editsWords({ futures, known }, future) {
  const { edits } = futures[future];
  return edits.map(({ turn, edit }) => `after turn ${turn}: ${editText(edit, known.core)}`).join("; ") || "no edits";
}

/** @type {Act} */
async function futures(session, rest) {
  if (rest) {
    const future = readNumber(rest, "the number of a future");
    const last = session.futures.length - 1;
    if (future > last) throw new CommandError(`no future ${future}; there are futures 0 to ${last}`);
    await session.showFuture(future);
  }
  return session.futures.map(({ end }, index) => {
    return `${index === session.future ? ">" : " "} ${index}: ${editsWords(session, index)}; ${end} turns`;
  });
}

/**
 * What each command does, by its name.
 * @type {Record<string, Act>}
 */
export const ACTS = {
  step: (session, rest) => step(session, rest, 1),
  "reverse-step": (session, rest) => step(session, rest, -1),
  run: (session, rest) => step(session, rest || String(session.end), 1),
  goto,
  until,
  continue: (session, rest) => search(session, rest, true),
  "reverse-continue": (session, rest) => search(session, rest, false),
  find,
  break: setBreak,
  delete: deleteBreak,
  undo: (session) => retrace(session, "undo"),
  redo: (session) => retrace(session, "redo"),
  edit,
  fill,
  move,
  kill,
  spawn,
  futures,
  list,
  queue,
  born,
  show,
  why,
  changed,
  explain,
};

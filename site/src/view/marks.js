/** What is marked on the core: what is looked at, what the turn did, deaths, breakpoints and other futures. */
import { CELL_WORDS } from "../model/cells.js";

/** @typedef {import("./session.js").Session} Session */
/**
 * What is drawn over the cells, by addresses: the cells that are looked at; the cells that the last turn read; the
 * cells that differ from another future; where warriors died; ranges with breakpoints; and arrows from cell to cell.
 * `warrior` made the last turn.
 * @typedef {object} Marks
 * @property {number | null} pinned
 * @property {number | null} hovered
 * @property {number | null} head
 * @property {number[]} reads
 * @property {number} warrior
 * @property {number[]} differences
 * @property {{address: number, warrior: number}[]} graves
 * @property {number[][]} breaks
 * @property {{from: number, to: number, warrior: number, isFaint: boolean}[]} arrows
 */

/** Below this speed the next instruction is marked while the battle plays. */
const SLOW = 15;
/** The maximum number of marked cells that differ between two futures. */
const MAX_DIFFERENCES = 2000;

/**
 * Returns what is marked while a turn is drawn.
 * @param {Session} session
 * @param {import("../worker/desk.js").View} view the turn
 * @param {number | null} hovered the cell under the pointer
 * @returns {Marks}
 */
export function marksOf(session, view, hovered) {
  const { move, opened, way, rate, pinned, breaks } = session;
  const showsTurn = way === 0 || rate < SLOW;
  const dead = (opened?.deaths ?? []).filter(({ turn, address }) => turn <= view.turn && address >= 0);
  return {
    pinned,
    hovered,
    head: showsTurn ? view.head : null,
    reads: showsTurn && move?.turn === view.turn ? move.reads : [],
    warrior: move?.warrior ?? 0,
    differences: differencesOf(session),
    graves: dead.map(({ address, warrior }) => ({ address, warrior })),
    breaks: breaks.all.flatMap(({ cells }) => (cells ? [cells] : [])),
    arrows: way === 0 ? arrowsOf(session) : [],
  };
}

/**
 * Returns the arrows of the death that is explained: from each instruction to the cell that it wrote or led to.
 * @param {Session} session
 */
function arrowsOf({ chain }) {
  const moves = (chain?.links ?? []).filter(({ kind, address, target }) => kind !== "death" && address !== target);
  return moves.map(({ kind, address, target, warrior }) => {
    return { from: address, to: target, warrior, isFaint: kind === "aim" };
  });
}

/**
 * Returns the addresses of cells that differ in the future that is shown beside this one.
 * @param {Session} session
 */
function differencesOf({ view, beside }) {
  if (!view || !beside) return [];
  const [own, other] = [view.cells, beside.view.cells];
  const found = [];
  for (let at = 0; at < own.length && found.length < MAX_DIFFERENCES; at += CELL_WORDS) {
    const isOther = own[at] !== other[at] || own[at + 1] !== other[at + 1] || own[at + 2] !== other[at + 2];
    if (isOther) found.push(at / CELL_WORDS);
  }
  return found;
}

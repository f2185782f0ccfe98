/** The turns in which a process of a history and its ancestors were born, even if edits are between these turns. */

/** @typedef {import("../model/fight.js").Edit} Edit */
/**
 * The turns in which a process and its ancestors were born, its own birth first. `added` is the turn after which an
 * edit added the first ancestor, or null if the first ancestor was loaded.
 * @typedef {{births: number[], added: number | null}} Descent
 */

/**
 * Returns where a process comes from. `place` is its place in the queue of its warrior after the turn and the edits
 * after that turn. Throws a MarsError if there is no such process.
 * @param {import("./history.js").History} history
 * @param {number} turn
 * @param {number} warrior
 * @param {number} place
 * @returns {Descent}
 */
export function birthsIn({ mars, segments }, turn, warrior, place) {
  /** @type {number[]} */
  const births = [];
  let at = place;
  for (const { run, last } of segments.filter((one) => one.run.first <= turn).reverse()) {
    const { battle } = run.start;
    const found = mars.ancestors(battle, Math.min(turn, last) - run.first, warrior, at);
    for (const birth of found.births) births.push(birth);
    at = found.first;
    if (run.edit && isAdded(run.edit, warrior, at, battle.queue(warrior).length)) return { births, added: run.first };
    if (run.edit && isMovedUp(run.edit, warrior, at)) at++;
  }
  return { births, added: null };
}

/**
 * Returns whether an edit added a process, which is then the last one of the queue.
 * @param {Edit} edit
 * @param {number} warrior
 * @param {number} place
 * @param {number} count the number of processes
 */
const isAdded = (edit, warrior, place, count) =>
  edit.kind === "add" && edit.warrior === warrior && place === count - 1;

/**
 * Returns whether an edit killed a process that was ahead, in its queue, of the process at `place` after the edit.
 * @param {Edit} edit
 * @param {number} warrior
 * @param {number} place
 */
const isMovedUp = (edit, warrior, place) => edit.kind === "kill" && edit.warrior === warrior && place >= edit.place;

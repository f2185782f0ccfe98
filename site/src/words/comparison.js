/** What a change of a warrior shows: the formula and the sentences of `corewar challenge --old`. */

/**
 * A change of the score of a round, and its standard error, or null if it isn't known.
 * @typedef {{change: number, error: number | null}} Change
 */

/**
 * A row, and what a loss, a win and a tie are worth.
 * @typedef {import("../engine/mars.js").Row & {values: number[]}} Counted
 */

/** The number of standard errors from which a change is more than chance. */
const SURE = 2;
/** How many standard errors the true value is away at most, 19 times of 20. */
const FAR = 1.96;

/**
 * Returns the change of the mean score of a round, over several opponents. Both versions start at the same positions
 * in a round, so what a position does to both cancels out. Rounds with the same number have the same positions for each
 * opponent, so their scores are added first.
 * @param {ArrayLike<number>[]} old for each opponent the scores of the rounds
 * @param {ArrayLike<number>[]} now
 * @param {boolean} isDrawn whether positions are drawn, so that rounds differ by chance
 * @returns {Change}
 */
export function changeOf(old, now, isDrawn) {
  const sum = (/** @type {ArrayLike<number>[]} */ all, /** @type {number} */ round) =>
    all.reduce((total, scores) => total + scores[round], 0);
  const changes = Array.from(now[0], (_, round) => sum(now, round) - sum(old, round));
  const mean = changes.reduce((total, one) => total + one, 0) / changes.length;
  const squares = changes.reduce((total, one) => total + (one - mean) ** 2, 0);
  const error = Math.sqrt(squares / (changes.length - 1) / changes.length);
  const isKnown = isDrawn && changes.length > 1;
  return { change: mean / now.length, error: isKnown ? error / now.length : null };
}

/**
 * Returns whether a change is more than chance.
 * @param {Change} change
 */
export const isSure = ({ change, error }) => error !== null && Math.abs(change) > 0 && Math.abs(change) >= SURE * error;

/**
 * Says whether a change is more than chance.
 * @param {Change} change
 */
export function verdict({ change, error }) {
  if (error === null) return "Chance cannot be estimated from one round or for a fixed position; try 100 rounds.";
  if (error === 0) return `${change ? "The change is the same" : "Both versions score the same"} in every round.`;
  const size = (Math.abs(change) / error).toFixed(1);
  if (!isSure({ change, error })) {
    return `The change is ${size} standard errors, which may be chance. More rounds can detect smaller changes.`;
  }
  return `The new version is ${change > 0 ? "better" : "worse"}: the change is ${size} standard errors.`;
}

/**
 * Returns the points per round, and how far from them the true value is at most, 19 times of 20. One round of each
 * outcome is added to estimate this, since a warrior that has lost all of 100 rounds may win some of the next.
 * @param {Counted} row
 */
export function mean({ points, wins, ties, losses, values }) {
  const rounds = wins + ties + losses;
  const counts = [losses, wins, ties].map((count) => count + 1);
  const moment = (/** @type {number} */ power) =>
    counts.reduce((sum, count, index) => sum + count * values[index] ** power, 0) / (rounds + 3);
  return { points: points / rounds, far: FAR * Math.sqrt((moment(2) - moment(1) ** 2) / rounds) };
}

/**
 * Returns whether the best of `count` rows leads another row by more than chance: even if all are equally good, the
 * best one leads by some points, and by more if there are more rows.
 * @param {Counted} best
 * @param {Counted} other
 * @param {number} count of the rows
 */
export function isLead(best, other, count) {
  const [one, two] = [best, other].map(mean);
  const error = Math.hypot(one.far, two.far) / FAR;
  return one.points - two.points >= Math.max(SURE, Math.sqrt(2 * Math.log(count))) * error;
}

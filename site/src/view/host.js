/** What the bench, the league and the lessons need from the page, and what they share. */
import { MarsError } from "../model/errors.js";
import * as results from "../model/layout.js";
import { explain } from "../words/errors.js";

/** @typedef {import("../model/fight.js").Source} Source */
/** @typedef {import("../model/settings.js").Settings} Settings */
/** @typedef {import("../engine/mars.js").Row} Row */
/** @typedef {{settings: Settings, seed: number, rounds: number, position: number, formula: string}} MatchTerms */
/**
 * @typedef {object} Host
 * @property {import("../worker/pool.js").Pool} pool
 * @property {import("./shelf.js").Shelf} shelf
 * @property {() => MatchTerms} terms
 * @property {() => void} note notes what outlives the page
 * @property {(sources: Source[], terms?: Partial<MatchTerms> & {round?: number}) => Promise<void>} fight fights a round
 *   of a match, the first one unless the terms say otherwise, and shows it
 * @property {Record<string, string>} meanings
 */

/**
 * Results of mars.h that are not about a source.
 * @type {Record<number, string>}
 */
const REASONS = {
  [results.OUT_OF_MEMORY]: "Out of memory.",
  [results.SETTINGS]: "These settings are not valid.",
  [results.PARAMETERS]: "These core settings are not valid together.",
  [results.FORMULA]: "The score formula is not valid.",
  [results.PLACEMENT]: "The core has no room for these warriors at this minimum distance.",
  [results.BATTLE]: "The warriors cannot be loaded.",
  [results.SCORE]: "The score formula has no value in some round.",
};

/**
 * Waits until each answer has come or failed. Then throws the error of the first one that failed, if any.
 * @param {Promise<unknown>[]} pending
 */
export async function allOf(pending) {
  for (const answer of await Promise.allSettled(pending)) if (answer.status === "rejected") throw answer.reason;
}

/**
 * Returns the sum of two rows.
 * @param {Row} one
 * @param {Row} other
 * @returns {Row}
 */
export const sumOf = (one, other) => ({
  points: one.points + other.points,
  wins: one.wins + other.wins,
  ties: one.ties + other.ties,
  losses: one.losses + other.losses,
});

/**
 * Returns why a call failed, in a sentence.
 * @param {unknown} error
 * @param {Source[]} sources
 * @param {Record<string, string>} meanings
 */
export function errorWords(error, sources, meanings) {
  if (!(error instanceof MarsError)) return String(/** @type {Error} */ (error).message ?? error);
  const source = sources[error.warrior] ?? sources[0];
  if (error.code !== results.ASSEMBLY || !source) {
    return REASONS[error.code] ?? error.message;
  }
  const { line, text } = explain(error, source.text, meanings);
  return `${source.name}${line ? `, line ${line}` : ""}: ${text}`;
}

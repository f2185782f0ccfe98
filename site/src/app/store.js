/**
 * What this browser keeps for each folder, if it allows that: sources, the last league, and how the page was left.
 * Damaged parts are left out.
 */
import { MAX_FORMULA } from "../model/layout.js";
import { RANGES, SETTINGS } from "../model/settings.js";
import { folderKey } from "./server.js";

/** @typedef {import("../view/host.js").MatchTerms} MatchTerms */
/** @typedef {import("../view/league.js").KeptLeague} KeptLeague */
/** @typedef {import("../view/shelf.js").Kind} Kind */
/** @typedef {{text: string, saved: string, kind: Kind, made: number}} KeptSource `made` orders the sources */
/**
 * @typedef {object} KeptPage
 * @property {string} [shown] the source in the editor
 * @property {string[]} [marked] the sources that fight
 * @property {string[]} [removed] the examples that the user removed
 * @property {Partial<MatchTerms>} [terms]
 * @property {string} [theme] "light" or "dark"
 * @property {boolean} [desk] whether the editor is shown
 * @property {number} [width] of the editor
 * @property {boolean} [curves] whether the strip of time has curves
 * @property {string[]} [done] the lessons that the user has done
 */

const NAME = `corewar ${folderKey}`.trim();
/** The start of a source's key. Each source has its own key, so that two windows can change different sources. */
const SOURCE = `${NAME}: `;
/** The key of the league that was run last. */
const LEAGUE = `${NAME}; league`;
/** A league of more characters is not kept: sources need the room. */
const MAX_LEAGUE_SIZE = 1_000_000;

/** @typedef {(value: any) => boolean} Check */
const isText = (/** @type {unknown} */ value) => typeof value === "string";
const isTexts = (/** @type {unknown} */ value) => Array.isArray(value) && value.every(isText);
const isNumber = (/** @type {unknown} */ value) => Number.isSafeInteger(value) && Number(value) >= 0;
const isTruth = (/** @type {unknown} */ value) => typeof value === "boolean";

/** @type {Check} */
const areSettings = (value) =>
  SETTINGS.every((name) => !(name in value) || (isNumber(value[name]) && value[name] <= RANGES[name].maximum));

/** @type {Record<string, Check>} */
const TERMS = {
  settings: (value) => typeof value === "object" && value !== null && areSettings(value),
  seed: isNumber,
  rounds: isNumber,
  position: isNumber,
  formula: (value) => isText(value) && value.length <= MAX_FORMULA,
};

/** @type {Record<string, Check>} */
const KEPT = {
  shown: isText,
  marked: isTexts,
  removed: isTexts,
  terms: (value) => isWhole(value, TERMS),
  theme: (value) => value === "light" || value === "dark",
  desk: isTruth,
  width: isNumber,
  curves: isTruth,
  done: isTexts,
};

/**
 * Returns whether a value is an object whose known parts are valid.
 * @param {any} value
 * @param {Record<string, Check>} checks
 */
const isWhole = (value, checks) =>
  typeof value === "object" && value !== null && !Array.isArray(value) && Object.entries(value).every(holds(checks));

/** @param {Record<string, Check>} checks */
const holds =
  (checks) =>
  (/** @type {[string, unknown]} */ [name, value]) => !Object.hasOwn(checks, name) || checks[name](value);

/** @type {Record<string, Check>} */
const LEAGUE_PARTS = {
  sources: (value) => Array.isArray(value) && value.every((one) => isText(one?.name) && isText(one.text)),
  names: isTexts,
  errors: isTexts,
  terms: (value) => isComplete(value, TERMS),
  took: isNumber,
  results: (value) => Array.isArray(value) && value.every(areCounts),
};

/** Whether a value is a result: the indices of two sources, the lower one first, and five safe integers. */
const areCounts = (/** @type {any} */ value) => {
  if (!Array.isArray(value) || value.length !== 7 || !value.every(Number.isSafeInteger)) return false;
  return 0 <= value[0] && value[0] < value[1];
};

/**
 * Returns whether a value is an object that has all known parts, each of them valid.
 * @param {any} value
 * @param {Record<string, Check>} checks
 */
const isComplete = (value, checks) => isWhole(value, checks) && Object.keys(checks).every((name) => name in value);

/** @type {Check} */
const isLeague = (value) =>
  isComplete(value, LEAGUE_PARTS) &&
  value.names.length === value.sources.length &&
  value.results.every((/** @type {number[]} */ [, other]) => other < value.sources.length);

/** The kinds of stored sources. */
const KINDS = ["own", "example", "lesson"];
/**
 * The keys of the damaged entries, of which the damaged part is left out.
 * @type {Set<string>}
 */
const damaged = new Set();

/**
 * Returns the text that is stored under a key, or null.
 * @param {string} key
 */
function itemOf(key) {
  try {
    return localStorage.getItem(key);
  } catch {
    return null;
  }
}

/**
 * Returns the value of a stored text; undefined if there is none, or if it is damaged, which is noted.
 * @param {string} key
 * @param {string | null} text
 */
function parsed(key, text) {
  if (text === null) return undefined;
  try {
    return JSON.parse(text);
  } catch {
    damaged.add(key);
    return undefined;
  }
}

/** @returns {KeptPage & {sources?: unknown}} */
function read() {
  const found = parsed(NAME, itemOf(NAME));
  const isRecord = typeof found === "object" && found !== null && !Array.isArray(found);
  const entries = isRecord ? Object.entries(found) : [];
  const sound = entries.filter(holds(KEPT));
  if ((found !== undefined && !isRecord) || sound.length < entries.length) damaged.add(NAME);
  return Object.fromEntries(sound);
}

/**
 * Returns a source that was stored, or null if its text is damaged or there is none.
 * @param {string} key
 * @param {string | null} item
 * @returns {KeptSource | null}
 */
function sourceOf(key, item) {
  const { text, saved, kind, made } = parsed(key, item) ?? {};
  if (!isText(text)) {
    if (item !== null) damaged.add(key);
    return null;
  }
  return {
    text,
    saved: isText(saved) ? saved : "",
    kind: KINDS.includes(kind) ? kind : "own",
    made: isNumber(made) ? made : 0,
  };
}

/** Gives each source of the form before version 2 a key of its own. An example that is not changed needs none. */
function renew() {
  const { sources, ...rest } = read();
  if (sources === undefined) return;
  const all = Array.isArray(sources) ? sources.filter((one) => isText(one?.name) && isText(one.text)) : [];
  if (!Array.isArray(sources) || all.length < sources.length) damaged.add(NAME);
  all.forEach(({ name, text, saved, isExample }, made) => {
    if (isExample && text === saved) return;
    keepSource(name, { text, saved: isText(saved) ? saved : "", kind: isExample ? "example" : "own", made });
  });
  const marked = all.filter(({ fights }) => fights === true).map(({ name }) => name);
  set(NAME, JSON.stringify({ ...rest, marked }));
}

/**
 * Stores a text under a key, or removes the key if the text is null. Returns whether the browser allows that.
 * @param {string} key
 * @param {string | null} text
 */
function set(key, text) {
  try {
    if (text === null) localStorage.removeItem(key);
    else localStorage.setItem(key, text);
    return true;
  } catch {
    return false;
  }
}

/**
 * Stores a source, or removes the stored one if `source` is null. Returns whether the browser allows that.
 * @param {string} name
 * @param {KeptSource | null} source
 */
export const keepSource = (name, source) => set(SOURCE + name, source && JSON.stringify(source));

/**
 * Stores a league in place of the one before, or only removes that one if the new league is too large.
 * @param {KeptLeague} league
 */
export function keepLeague(league) {
  const text = JSON.stringify(league);
  set(LEAGUE, text.length <= MAX_LEAGUE_SIZE ? text : null);
}

/** @returns {KeptLeague | null} */
export function keptLeague() {
  const league = parsed(LEAGUE, itemOf(LEAGUE));
  if (league === undefined || isLeague(league)) return league ?? null;
  damaged.add(LEAGUE);
  return null;
}

renew();
export const stored = read();

/**
 * Stores changes. Returns whether the browser allows that: it may forbid storing, or its storage may be full.
 * @param {KeptPage} changes
 */
export function keep(changes) {
  // Another window may have changed the rest.
  const now = read();
  if (changes.done) changes.done = [...new Set([...(now.done ?? []), ...changes.done])];
  if (changes.terms) changes.terms = { ...now.terms, ...changes.terms };
  Object.assign(stored, changes);
  return set(NAME, JSON.stringify({ ...now, ...changes }));
}

/**
 * Returns what is stored of a source now, or null.
 * @param {string} name
 */
export const keptSource = (name) => sourceOf(SOURCE + name, itemOf(SOURCE + name));

const keys = () => {
  try {
    return Object.keys(localStorage);
  } catch {
    return [];
  }
};

/** Returns the sources by their names, in the order in which they were made. */
export function keptSources() {
  const names = keys().flatMap((key) => (key.startsWith(SOURCE) ? key.slice(SOURCE.length) : []));
  const found = names.flatMap((name) => {
    const source = keptSource(name);
    return source ? [/** @type {[string, KeptSource]} */ ([name, source])] : [];
  });
  return new Map(found.sort(([, one], [, other]) => one.made - other.made));
}

/** Returns the names of the damaged entries. */
export const damagedNames = () =>
  [...damaged].map((key) => (key === NAME ? "settings" : key === LEAGUE ? "league" : key.slice(SOURCE.length)));

/** Deletes the damaged sources, a damaged league and the damaged parts of the settings. */
export function deleteDamaged() {
  for (const key of damaged) set(key, key === NAME ? JSON.stringify(read()) : null);
}

/**
 * Calls a function when another window has stored or removed a source, with what is stored now and was before.
 * @param {(name: string, now: KeptSource | null, before: KeptSource | null) => void} changed
 */
export function listenToSources(changed) {
  addEventListener("storage", ({ key, newValue, oldValue }) => {
    if (key?.startsWith(SOURCE)) changed(key.slice(SOURCE.length), sourceOf(key, newValue), sourceOf(key, oldValue));
  });
}

/** Forgets everything that is kept for this folder, if the user agrees, and loads the page again. */
export function startAfresh() {
  if (!confirm("Delete all sources and settings that this browser has stored for this page?")) return;
  for (const key of keys()) if ([NAME, LEAGUE].includes(key) || key.startsWith(SOURCE)) set(key, null);
  location.replace(location.pathname + location.search);
}

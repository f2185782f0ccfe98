/** A fight as a text, for addresses and pages: sources, settings, edits, the turn, and the cell in view. */
import { editText, parseEdit } from "../model/fight.js";
import { MAX_FORMULA, MAX_ROUNDS, MAX_SEED, MAX_WARRIORS } from "../model/layout.js";
import { DEFAULTS, FORMULA, HILLS, MAX_SOURCE_SIZE, RANGES, SETTINGS, hillOf } from "../model/settings.js";

/** @typedef {import("../model/fight.js").Fight} Fight */
/** @typedef {import("../model/settings.js").Settings} Settings */
/** @typedef {{fight: Fight, turn: number, pinned: number | null}} Shared */
/**
 * What the address of a page selects of its fight: some of the warriors, a round, a turn and a seed.
 * @typedef {{warriors?: number[], round?: number, turn?: number, seed?: number}} Selection
 */

/** The version of the form of links. */
const VERSION = 1;
/** The maximum number of characters of a name, the maximum number of edits, and the last turn that is read. */
const MAX_NAME_LENGTH = 100;
const MAX_EDITS = 1000;
const LAST_TURN = 1e9;
/** The maximum number of bytes of an inflated link, which is the maximum size of all sources of a match. */
const MAX_INFLATED = MAX_WARRIORS * MAX_SOURCE_SIZE;

/**
 * Returns the output of a stream for some bytes.
 * @param {Uint8Array} bytes
 * @param {CompressionStream | DecompressionStream} stream
 */
export async function through(bytes, stream) {
  return new Uint8Array(await new Response(new Blob([bytes]).stream().pipeThrough(stream)).arrayBuffer());
}

/**
 * Returns the bytes of a text in base64.
 * @param {string} text
 */
export const bytesOf = (text) => Uint8Array.from(atob(text), (letter) => letter.charCodeAt(0));

/**
 * Returns bytes as base64url, without padding.
 * @param {Uint8Array} bytes
 */
function base64(bytes) {
  let text = "";
  for (const byte of bytes) text += String.fromCharCode(byte);
  return btoa(text).replaceAll("+", "-").replaceAll("/", "_").replace(/=+$/, "");
}

/**
 * Returns the text of a fight: deflated JSON in base64url.
 * @param {Shared} shared
 */
export async function pack({ fight, turn, pinned }) {
  const { settings, seed, rounds, round, position, formula, warriors, edits } = fight;
  const short = {
    v: VERSION,
    h: hillOf(settings) || settings,
    s: seed,
    n: rounds,
    r: round || undefined,
    p: position || undefined,
    f: formula === FORMULA ? undefined : formula,
    w: warriors.map(({ name, text }) => [name, text]),
    e: edits.length ? edits.map((entry) => [entry.turn, editText(entry.edit, settings.core)]) : undefined,
    t: turn || undefined,
    c: pinned ?? undefined,
  };
  const bytes = new TextEncoder().encode(JSON.stringify(short));
  return base64(await through(bytes, new CompressionStream("deflate-raw")));
}

/**
 * Returns a number of a link, or `fallback` if the link lacks it. Throws an Error if it is no integer in the range.
 * @param {unknown} value
 * @param {number} minimum
 * @param {number} maximum
 * @param {number} fallback
 */
function whole(value, minimum, maximum, fallback) {
  if (value === undefined || value === null) return fallback;
  if (typeof value !== "number" || !Number.isInteger(value) || value < minimum || value > maximum) {
    throw new Error("A number in it is out of range.");
  }
  return value;
}

/**
 * Reads settings: the name of a hill, or an object, whose missing settings have their defaults.
 * @param {unknown} given
 * @returns {Settings}
 */
function readSettings(given) {
  if (typeof given === "string" && Object.hasOwn(HILLS, given)) return HILLS[given];
  if (typeof given !== "object" || given === null) throw new Error("It has no settings.");
  const found = /** @type {Record<string, unknown>} */ (given);
  const entries = SETTINGS.map((name) => {
    const { minimum, maximum } = RANGES[name];
    return [name, whole(found[name], minimum, maximum, DEFAULTS[name])];
  });
  return Object.fromEntries(entries);
}

/** @param {unknown} given */
function readSources(given) {
  if (!Array.isArray(given) || given.length < 1) throw new Error("It has no sources.");
  return given.map((one) => {
    const [name, text] = Array.isArray(one) ? one : [];
    if (typeof name !== "string" || typeof text !== "string" || text.length > MAX_SOURCE_SIZE) {
      throw new Error("A source in it is damaged.");
    }
    return { name: name.slice(0, MAX_NAME_LENGTH), text };
  });
}

/**
 * Reads at most MAX_EDITS edits, each a turn and a text of `editText`.
 * @param {unknown} given
 * @param {number} core
 */
function readEdits(given, core) {
  return (Array.isArray(given) ? given : []).slice(0, MAX_EDITS).map((one) => {
    const edit = Array.isArray(one) && typeof one[1] === "string" ? parseEdit(one[1], core) : null;
    if (!edit) throw new Error("An edit in it is damaged.");
    return { turn: whole(one[0], 0, LAST_TURN, 0), edit };
  });
}

/**
 * Returns the JSON value of a text of `pack`. Throws an Error if the text is damaged or too long.
 * @param {string} text
 */
async function inflate(text) {
  try {
    const bytes = bytesOf(text.replaceAll("-", "+").replaceAll("_", "/"));
    const inflated = new Blob([bytes]).stream().pipeThrough(new DecompressionStream("deflate-raw"));
    return JSON.parse(await firstOf(inflated, MAX_INFLATED));
  } catch {
    throw new Error("It is damaged or incomplete.");
  }
}

/**
 * Returns the text of a stream. Throws if it has more bytes than the maximum: some kilobytes can inflate to gigabytes.
 * @param {ReadableStream<Uint8Array>} stream
 * @param {number} maximum
 */
async function firstOf(stream, maximum) {
  const [reader, decoder] = [stream.getReader(), new TextDecoder()];
  let [text, size] = ["", 0];
  for (let part = await reader.read(); !part.done; part = await reader.read()) {
    size += part.value.length;
    if (size > maximum) {
      await reader.cancel();
      throw new RangeError("too large");
    }
    text += decoder.decode(part.value, { stream: true });
  }
  return text + decoder.decode();
}

/**
 * Returns the fight of a text, or the part of it that `selection` selects. Throws an Error if the text is damaged.
 * @param {string} text
 * @param {Selection} selection
 * @returns {Promise<Shared>}
 */
export async function unpack(text, selection = {}) {
  const short = await inflate(text);
  if (short?.v !== VERSION) throw new Error("It does not contain a battle.");
  const settings = readSettings(short.h);
  const all = readSources(short.w);
  const warriors = (selection.warriors ?? [...all.keys()]).flatMap((index) => all[index] ?? []);
  if (warriors.length < 1 || warriors.length > MAX_WARRIORS) throw new Error("It has too many warriors, or none.");
  const rounds = whole(short.n, 1, MAX_ROUNDS, 100);
  const round = Math.min(selection.round ?? whole(short.r, 0, rounds - 1, 0), rounds - 1);
  const formula = typeof short.f === "string" ? short.f.slice(0, MAX_FORMULA) : FORMULA;
  const position = whole(short.p, 0, settings.core, 0);
  const seed = whole(selection.seed ?? short.s, 1, MAX_SEED, 1);
  const edits = readEdits(short.e, settings.core);
  const turn = selection.turn ?? whole(short.t, 0, LAST_TURN, 0);
  const pinned = short.c === undefined ? null : whole(short.c, 0, settings.core - 1, 0);
  return { fight: { settings, seed, rounds, round, position, formula, warriors, edits }, turn, pinned };
}

/**
 * Returns what an address carries after its `#`: the text of a fight, `f`; a selection of its warriors, round, turn and
 * seed, such as `w=0,5`, `r=3`, `t=100` and `s=7`; and whether it has `embed`, with which only the battle is shown.
 * @param {string} hash
 * @returns {{text: string, selection: Selection, isEmbedded: boolean}}
 */
export function readAddress(hash) {
  const given = new URLSearchParams(hash.replace(/^#/, ""));
  const numbers = (/** @type {string} */ name) => {
    const text = given.get(name) ?? "";
    return /^\d{1,9}(,\d{1,9})*$/.test(text) ? text.split(",").map(Number) : undefined;
  };
  const [warriors, rounds, turns] = [numbers("w"), numbers("r"), numbers("t")];
  const seed = given.has("s") ? Number(given.get("s")) : undefined;
  const selection = { warriors, round: rounds?.[0], turn: turns?.[0], seed };
  return { text: given.get("f") ?? "", selection, isEmbedded: given.has("embed") };
}

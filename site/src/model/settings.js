/** The settings of a match: their ranges, the defaults of `mars`, and the settings of known hills. */
import { MAX_CORE, MAX_CYCLES, MAX_PROCESSES } from "./layout.js";

/**
 * The settings of a match. A read or write limit of 0 stands for the core size.
 * @typedef {object} Settings
 * @property {number} core cells of the core, 1 to 1,048,576
 * @property {number} processes maximum number of processes of a warrior, 1 to 65,536
 * @property {number} cycles maximum number of cycles of a round, 1 to 10,000,000
 * @property {number} readLimit 0, or 1 to the core size
 * @property {number} writeLimit 0, or 1 to the core size
 * @property {number} longest maximum length of a warrior, 1 to the core size
 * @property {number} distance minimum distance between warriors, `longest` to the core size
 */

/** The default score formula: the points of each survivor of a round of W warriors of which S survive. */
export const FORMULA = "(W*W-1)/S";
/** The maximum number of bytes of a source. */
export const MAX_SOURCE_SIZE = 1_048_576;
/** The maximum number of turns of a battle that is shown. Such a long battle takes a few seconds to open. */
export const MAX_TURNS = 16_000_000;

/** @type {Settings} */
export const DEFAULTS = {
  core: 8000,
  processes: 8000,
  cycles: 80000,
  readLimit: 0,
  writeLimit: 0,
  longest: 100,
  distance: 100,
};

/** @type {Record<string, Settings>} */
export const HILLS = {
  "94nop": DEFAULTS,
  "94x": { ...DEFAULTS, core: 55440, processes: 10000, cycles: 500000, longest: 200, distance: 200 },
  tiny: { ...DEFAULTS, core: 800, processes: 800, cycles: 8000, longest: 20, distance: 20 },
  nano: { ...DEFAULTS, core: 80, processes: 80, cycles: 800, longest: 5, distance: 5 },
};

/**
 * The least and the greatest value of each setting. If other settings limit a value further, the machine checks that.
 * @type {Record<keyof Settings, {name: string, minimum: number, maximum: number}>}
 */
export const RANGES = {
  core: { name: "Core size", minimum: 1, maximum: MAX_CORE },
  cycles: { name: "Cycle limit", minimum: 1, maximum: MAX_CYCLES },
  processes: { name: "Process limit", minimum: 1, maximum: MAX_PROCESSES },
  longest: { name: "Maximum length", minimum: 1, maximum: MAX_CORE },
  distance: { name: "Minimum distance", minimum: 1, maximum: MAX_CORE },
  readLimit: { name: "Read limit, 0 for the core size", minimum: 0, maximum: MAX_CORE },
  writeLimit: { name: "Write limit, 0 for the core size", minimum: 0, maximum: MAX_CORE },
};

export const SETTINGS = /** @type {(keyof Settings)[]} */ (Object.keys(RANGES));

/**
 * Returns the name of the hill with these settings, or "".
 * @param {Settings} settings
 */
export function hillOf(settings) {
  return Object.keys(HILLS).find((hill) => SETTINGS.every((name) => settings[name] === HILLS[hill][name])) ?? "";
}

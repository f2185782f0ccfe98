/**
 * The colours of warriors: sixteen that are far apart, also for people who see few colours. The core is always dark.
 */
import { BY_HAND, NOBODY } from "../model/cells.js";

const COLOURS = "#ff7a33 #3f9df2 #2fe0a0 #a98fb4 #f7e21f #c2f0fb #a35f4a #bdb4ff".split(" ");
COLOURS.push(..."#d0562a #2f6fc0 #179a6c #d060b8 #a8951a #4aa3bd #d8a58c #858d98".split(" "));
/** The number of shades that a cell goes through until it no longer counts as written recently. */
export const SHADES = 24;
const GROUND = [14, 19, 25];
/** The colour of the stage: `--stage` of the style sheet. */
const BACK = [6, 8, 12];
/** The number of shades that glow, and how strongly the first one does. */
const GLOWING = 9;
const GLOW = 0.45;
/** How strongly processes glow, and the part of its glow that a cell itself shows, so that its middle is brightest. */
const PROCESS_GLOW = 0.6;
const OWN = 0.7;
const WHITE = [255, 255, 255];
const EDITED = [235, 235, 235];

/** @typedef {number[]} Colour red, green and blue, 0 to 255 */

/** @param {string} text */
const channels = (text) => [1, 3, 5].map((at) => parseInt(text.slice(at, at + 2), 16));

/**
 * Returns a colour between two others: the first if `part` is 0, the second if it is 1.
 * @param {Colour} one
 * @param {Colour} other
 * @param {number} part
 */
const mixed = (one, other, part) => one.map((value, index) => value + (other[index] - value) * part);

/**
 * Returns a colour as the four bytes of a pixel.
 * @param {Colour} colour
 */
function pixel(colour) {
  const [red, green, blue] = colour.map(Math.round);
  return ((255 << 24) | (blue << 16) | (green << 8) | red) >>> 0;
}

/**
 * Returns a pixel that adds a colour to the glow below it: as transparent as the colour allows.
 * @param {Colour} colour
 */
function clear(colour) {
  const most = Math.min(255, Math.max(...colour));
  const pure = pixel(colour.map((value) => Math.min(255, (value * 255) / most)));
  return ((Math.round(most) << 24) | (pure & 0xffffff)) >>> 0;
}

/** The pixels between cells, and below cells that do not glow. */
export const BETWEEN = clear(BACK);
export const DARK = pixel([0, 0, 0]);

/** @param {Colour} colour */
const css = (colour) => `rgb(${colour.map(Math.round)})`;

/** The colours of a battle, whose warriors are in the order of their turns. */
export class Palette {
  backText = css(BACK);
  /** The glow of each shade of each owner, which lies below the cell and reaches the cells around it. */
  glows = new Uint32Array((NOBODY + 1) * (SHADES + 1)).fill(DARK);
  /** The shades of each owner, from fresh to old. */
  shades = new Uint32Array((NOBODY + 1) * (SHADES + 1));

  /**
   * @param {number[]} order which source each warrior is; it has the same colour in all rounds
   * @param {number} chosen the only warrior in full colour, or -1 if all are
   * @param {number} shine how strongly cells glow, 0 to 1
   */
  constructor(order, chosen, shine) {
    this.shine = shine;
    this.shades.fill(this.#own(GROUND, GROUND, 0));
    const own = order.map((source) => channels(COLOURS[source % COLOURS.length]));
    const isShown = (/** @type {number} */ who) => chosen < 0 || chosen === who;
    const shown = own.map((colour, who) => (isShown(who) ? colour : mixed(colour, GROUND, 0.86)));
    this.text = own.map(css);
    this.mark = own.map((colour, who) => css(isShown(who) ? mixed(colour, WHITE, 0.25) : shown[who]));
    this.processGlow = shown.map((colour) => this.#glow(colour, PROCESS_GLOW));
    this.process = own.map((colour, who) => {
      return this.#own(isShown(who) ? mixed(colour, WHITE, 0.72) : shown[who], shown[who], PROCESS_GLOW);
    });
    shown.forEach((colour, who) => this.#shade(who, colour));
    this.#shade(BY_HAND, EDITED);
    this.colours = shown;
  }

  /**
   * Returns the pixel for a point of the battle's picture.
   * @param {number} owner
   * @param {number} light how much it has of the colour of its owner, 0 to 1
   * @param {number} white how much it has of white after that
   */
  lit(owner, light, white) {
    const colour = this.colours[owner] ?? (owner === BY_HAND ? EDITED : BACK);
    return pixel(mixed(mixed(BACK, colour, light), WHITE, 0.75 * white));
  }

  /**
   * Sets the shades and the glows of an owner.
   * @param {number} owner
   * @param {Colour} colour
   */
  #shade(owner, colour) {
    for (let age = 0; age <= SHADES; age++) {
      const part = 0.46 + 0.54 * (1 - age / SHADES) ** 1.7;
      const bright = age < 2 ? mixed(colour, WHITE, 0.09 * (2 - age)) : colour;
      const glow = GLOW * Math.max(0, 1 - age / GLOWING) ** 1.6;
      this.shades[owner * (SHADES + 1) + age] = this.#own(mixed(GROUND, bright, part), colour, glow);
      this.glows[owner * (SHADES + 1) + age] = this.#glow(colour, glow);
    }
  }

  /**
   * @param {Colour} colour
   * @param {number} glow
   */
  #glow(colour, glow) {
    return pixel(colour.map((value) => value * glow * this.shine));
  }

  /**
   * Returns the pixel of a cell, with a part of its glow.
   * @param {Colour} shade
   * @param {Colour} colour
   * @param {number} glow
   */
  #own(shade, colour, glow) {
    if (this.shine === 0) return pixel(shade);
    return clear(shade.map((value, channel) => value + OWN * colour[channel] * glow * this.shine));
  }
}

/**
 * Returns the style that gives an element the colour of a source.
 * @param {number} source
 */
export const swatch = (source) => `--own:${COLOURS[source % COLOURS.length]}`;

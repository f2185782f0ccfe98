/** The terms of matches: a hill or custom settings, seed, rounds, position and score formula. */
import { MAX_ROUNDS, MAX_SEED } from "../model/layout.js";
import { DEFAULTS, FORMULA, HILLS, RANGES, SETTINGS, hillOf } from "../model/settings.js";
import { clamp, element, make, onClick, typed } from "../view/dom.js";
import { errorWords } from "../view/host.js";

/** @typedef {import("../model/settings.js").Settings} Settings */
/** @typedef {import("../view/host.js").MatchTerms} MatchTerms */
/** @typedef {import("../worker/pool.js").Pool} Pool */

/** The terms of a page on which nothing is stored. */
export const DEFAULT_TERMS = { settings: DEFAULTS, seed: 1, rounds: 100, position: 0, formula: FORMULA };
/** The value of the list of hills while the settings are custom ones. */
const OWN = "";
/** In the list of hills, the value of the line that opens the dialog of custom settings. */
const EDIT = "edit";

export class Terms {
  #settings = DEFAULTS;
  #position = 0;
  #formula = FORMULA;

  /**
   * @param {{pool: Pool, meanings: Record<string, string>}} host
   * @param {(changes: Partial<MatchTerms>, isShown: boolean) => void} changed is called when the user changes terms;
   *   `isShown`: whether the battle that is shown depends on them
   */
  constructor(host, changed) {
    this.hill = typed("hill", HTMLSelectElement);
    this.seed = typed("seed", HTMLInputElement);
    this.rounds = typed("rounds", HTMLInputElement);
    this.dialog = typed("own", HTMLDialogElement);
    this.formula = typed("own-formula", HTMLInputElement);
    this.seed.max = String(MAX_SEED);
    this.rounds.max = String(MAX_ROUNDS);
    this.changed = changed;
    this.host = host;
    this.hill.append(...Object.keys(HILLS).map((name) => make("option", { value: name }, name)));
    // A list reports no choice of the line that it already shows.
    this.hill.append(make("option", { value: OWN, hidden: true }, "custom"));
    this.hill.append(make("option", { value: EDIT }, "custom …"));
    element("terms").addEventListener("submit", (event) => event.preventDefault());
    this.hill.onchange = () => this.#choose();
    const take = (/** @type {"seed" | "rounds"} */ name) => {
      // The fields show the numbers that are used.
      this.value = { ...this.value };
      changed({ [name]: this.value[name] }, name === "seed");
    };
    this.seed.onchange = () => take("seed");
    this.rounds.onchange = () => take("rounds");
    this.#makeDialog();
  }

  /** @returns {MatchTerms} */
  get value() {
    return {
      settings: this.#settings,
      seed: clamp(Math.round(Number(this.seed.value)) || 1, 1, MAX_SEED),
      rounds: clamp(Math.round(Number(this.rounds.value)) || 100, 1, MAX_ROUNDS),
      position: this.#position,
      formula: this.#formula,
    };
  }

  set value({ settings, seed, rounds, position, formula }) {
    this.#settings = { ...DEFAULTS, ...settings };
    this.#position = position;
    this.#formula = formula;
    this.hill.value = hillOf(this.#settings);
    this.seed.value = String(seed);
    this.rounds.value = String(rounds);
  }

  #choose() {
    if (!Object.hasOwn(HILLS, this.hill.value)) {
      this.#fill();
      this.dialog.showModal();
      return;
    }
    this.#settings = HILLS[this.hill.value];
    this.changed({ settings: this.#settings }, true);
  }

  #makeDialog() {
    const fields = SETTINGS.map((name) => {
      const { name: title, minimum, maximum } = RANGES[name];
      const field = make("input", { id: `own-${name}`, type: "number", min: minimum, max: maximum, required: true });
      return make("label", {}, title, field);
    });
    element("own-settings").append(...fields);
    onClick("own-cancel", () => this.dialog.close());
    this.dialog.addEventListener("close", () => (this.hill.value = hillOf(this.#settings)));
    element("own-form").addEventListener("submit", (event) => {
      event.preventDefault();
      this.#apply();
    });
    this.dialog.addEventListener("input", () => this.formula.setCustomValidity(""));
  }

  #fill() {
    for (const name of SETTINGS) typed(`own-${name}`, HTMLInputElement).value = String(this.#settings[name]);
    typed("own-position", HTMLInputElement).value = String(this.#position);
    this.formula.value = this.#formula;
    this.formula.setCustomValidity("");
  }

  /** Takes what was entered if it is valid. Otherwise the dialog stays open, and says why. */
  async #apply() {
    const number = (/** @type {string} */ id) => Number(typed(id, HTMLInputElement).value);
    const entries = SETTINGS.map((name) => [name, number(`own-${name}`)]);
    const settings = /** @type {Settings} */ (Object.fromEntries(entries));
    const formula = this.formula.value.trim() || FORMULA;
    this.formula.setCustomValidity(await this.#faultOf(settings, formula));
    if (!this.formula.reportValidity()) return;
    this.#settings = settings;
    this.#position = number("own-position");
    this.#formula = formula;
    this.dialog.close();
    this.changed({ settings: this.#settings, position: this.#position, formula: this.#formula }, true);
  }

  /**
   * Returns why settings and a score formula are not valid, or "".
   * @param {Settings} settings
   * @param {string} formula
   */
  async #faultOf(settings, formula) {
    const { pool, meanings } = this.host;
    try {
      await pool.ask("assemble", ["NOP\n", { settings, rounds: 1, warriors: 2 }], "terms", 3);
      await pool.ask("checkFormula", [formula], "terms", 3);
      return "";
    } catch (error) {
      return errorWords(error, [], meanings);
    }
  }
}

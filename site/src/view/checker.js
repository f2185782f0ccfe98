/** Assembles the source in the editor whenever it changes, and shows its errors or what it makes. */
import { MarsError } from "../model/errors.js";
import { ASSEMBLY } from "../model/layout.js";
import { errorsOf } from "../words/errors.js";
import { Stopped } from "../worker/pool.js";
import { element, make, refill, withCode } from "./dom.js";
import { errorWords } from "./host.js";

/** @typedef {import("../model/cells.js").Cell} Cell */
/** @typedef {import("../model/settings.js").Settings} Settings */
/** @typedef {import("../words/errors.js").Explained} Explained */
/** @typedef {ReturnType<import("../worker/jobs.js").Jobs["assemble"]>} Assembled */

export class Checker {
  /** Whether the source in the editor has an error. */
  isBroken = false;
  #checks = 0;

  /**
   * @param {import("./shelf.js").Host} host
   * @param {import("./editor.js").Editor} editor
   */
  constructor(host, editor) {
    this.host = host;
    this.editor = editor;
  }

  /**
   * Assembles a source and shows its errors, unless it changes or another one is checked meanwhile.
   * @param {import("./shelf.js").OpenSource} shown the source in the editor
   */
  async check(shown) {
    const { host, editor } = this;
    const text = shown.doc.getValue();
    const { settings, rounds } = host.terms();
    const check = ++this.#checks;
    host.pool.drop("lint");
    const found = await this.#assemble(text, { settings, rounds, warriors: 2 });
    if (!found || check !== this.#checks || text !== shown.doc.getValue()) return;
    const { errors, made } = found;
    this.isBroken = errors.length > 0;
    editor.showErrors(errors);
    this.#showMade(made, settings);
    element("fault").classList.toggle("bad", this.isBroken);
    const sorted = [...errors].sort((one, other) => one.line - other.line);
    // A source without an instruction has its error in no line.
    const where = (/** @type {Explained} */ { line, from }) => {
      const show = () => editor.showLine(line, from);
      return line ? [make("button", { className: "link", onclick: show }, `Line ${line}`), ": "] : [];
    };
    const messages = sorted.flatMap((one) => [...where(one), withCode(one.text), make("br")]);
    const size = made && `${made.name || shown.name}: ${made.cells.length} of ${settings.longest} cells`;
    refill(element("fault"), ...messages, size);
    host.checked();
  }

  /**
   * Returns the errors of a source, and what it makes if it has none; null if another one is checked in its place.
   * @param {string} text
   * @param {{settings: Settings, rounds: number, warriors: number}} terms
   * @returns {Promise<{errors: Explained[], made: Assembled | null} | null>}
   */
  async #assemble(text, terms) {
    const { pool, meanings } = this.host;
    /** @type {Assembled | null} */
    let made = null;
    try {
      const errors = await errorsOf(text, meanings, async (source) => {
        try {
          const assembled = await pool.ask("assemble", [source, terms], "lint", 3);
          if (source === text) made = assembled;
          return null;
        } catch (error) {
          if (error instanceof MarsError && error.code === ASSEMBLY) return error;
          throw error;
        }
      });
      return { errors, made };
    } catch (error) {
      if (error instanceof Stopped) return null;
      const why = `This source cannot be assembled. ${errorWords(error, [], meanings)}`;
      return { errors: [{ line: 1, from: 0, to: 0, text: why }], made };
    }
  }

  /**
   * Shows the load file of the source, and gives the editor the cells of each line.
   * @param {Assembled | null} made
   * @param {Settings} settings
   */
  #showMade(made, { core }) {
    const byLine = new Map(made?.lines.map(({ line }) => [line, /** @type {Cell[]} */ ([])]));
    made?.cells.forEach((cell, index) => byLine.get(made.lines[index].line)?.push(cell));
    this.editor.explain(byLine, core);
    element("load").textContent = made?.load ?? "";
  }
}

/** The cell that is looked at, with its neighbours: their texts, which can be edited, and who changed the cell when. */
import { cellText, readCell } from "../model/cells.js";
import { number, writtenWords } from "../words/battle.js";
import { instructionWords } from "../words/instruction.js";
import { cellOf } from "./arguments.js";
import { atCell } from "./breaks.js";
import { buttons, element, make, onClick, refill, throttle, withCode } from "./dom.js";
import { swatch } from "./palette.js";
import { standingNames, standingOn, timesWords } from "./standing.js";

/** @typedef {import("../worker/desk.js").View} View */

/** The number of neighbours on each side. */
const AROUND = 4;
const DONE = { at: "executed", changes: "changed", reads: "read" };

export class Cells {
  #isEditing = false;
  #request = "";
  /** What is said below the list in place of what the cell does, until something else is shown. */
  #notice = "";
  #listed = "";

  /**
   * @param {import("./session.js").Session} session
   * @param {import("./side.js").Side} side
   */
  constructor(session, side) {
    this.session = session;
    this.side = side;
    this.look = throttle(() => this.#list(), 40);
    onClick("release", () => session.pin(null));
    for (const button of buttons("#seek button")) {
      button.onclick = () => this.#seek(button, /** @type {keyof typeof DONE} */ (button.dataset.word));
    }
    session.listen((change) => {
      element("cell-box").hidden = session.way !== 0 && session.pinned === null;
      element("cell-box").classList.toggle("pinned", session.pinned !== null);
      if (change !== "play") this.#notice = "";
      if (change === "look") this.#showStops();
      if (change !== "play" || session.way === 0) this.look();
    });
  }

  /**
   * Goes to the turn after or before which something happens to the pinned cell.
   * @param {HTMLButtonElement} button
   * @param {keyof typeof DONE} word
   */
  async #seek(button, word) {
    const { session } = this;
    const { pinned } = session;
    if (pinned === null) return;
    const forward = button.dataset.way === "on";
    const found = await session.leap([{ word, cells: [pinned, pinned] }], forward);
    if (found) return;
    const when = `${forward ? "after" : "before"} turn ${number(session.turn)}`;
    this.#notice = `Cell ${number(pinned)} is not ${DONE[word]} ${when}.`;
    this.look();
  }

  /** Shows which breakpoints the pinned cell has. */
  #showStops() {
    const { session } = this;
    for (const button of buttons("#seek [data-stop]")) {
      const word = /** @type {import("../battle/conditions.js").Word} */ (button.dataset.stop);
      const cells = [session.pinned ?? 0, session.pinned ?? 0];
      button.onclick = () => session.breaks.toggle({ word, cells });
      button.setAttribute("aria-pressed", String(session.breaks.has({ word, cells })));
    }
  }

  /** The address of the pinned cell, or else of the cell to execute next; if the battle is over, of the last death. */
  get focus() {
    const { pinned, view, known } = this.session;
    return pinned ?? view?.head ?? Math.max(0, known.deaths.at(-1)?.address ?? 0);
  }

  #list() {
    const { session, focus } = this;
    const { view, known, pinned, way } = session;
    if (!view || this.#isEditing || (way && pinned === null)) return;
    const next = `Next: ${known.names[view.next]} at ${number(focus)}`;
    element("where").textContent = pinned !== null ? `Cell ${number(pinned)}` : view.head === null ? "The end" : next;
    element("release").hidden = element("seek").hidden = pinned === null;
    const count = Math.min(2 * AROUND + 1, known.core);
    const first = focus - Math.min(AROUND, known.core) + known.core;
    const addresses = Array.from({ length: count }, (_, index) => (first + index) % known.core);
    const standing = standingOn(view, (address) => addresses.includes(address));
    const lines = addresses.map((address) => this.#line(view, address, standing.get(address) ?? []));
    // A line that is pressed stays in its place while the battle plays, unless it changes.
    const listed = lines.map((line) => line.outerHTML).join("");
    if (listed !== this.#listed) refill(element("listing"), ...lines);
    this.#listed = listed;
    // A pinned cell is announced if the battle is stopped. Without a pinned cell, the turn is announced already.
    element("cell-words").setAttribute("aria-live", pinned === null || way ? "off" : "polite");
    const words = this.#notice || instructionWords(readCell(view.cells, focus), { core: known.core });
    element("cell-words").textContent = words;
    if (!way) this.#listChanges(view);
  }

  /**
   * Returns the line of the list for a cell.
   * @param {View} view
   * @param {number} address
   * @param {import("./standing.js").Standing} standing
   */
  #line(view, address, standing) {
    const { session, side } = this;
    const { known, opened } = session;
    const colour = (/** @type {number} */ who) => (opened && who < known.names.length ? swatch(opened.order[who]) : "");
    const cell = readCell(view.cells, address);
    const text = cellText(cell, known.core);
    const sentence = instructionWords(cell, { core: known.core });
    const line = side.lineOf(address);
    // The colour of the line says whose label it is.
    const label = known.labels.get(address)?.replace(/^\d+\./, "") ?? "";
    const origin = line ? `${line.name}, line ${line.line}: ${line.text}` : "";
    const button = make("button", { className: "bare text", title: `${sentence} Click to edit.` }, text);
    button.onclick = () => this.#edit(address, text, button);
    const look = { className: "bare address", title: "Select this cell", onclick: () => session.pin(address) };
    const names = standingNames(standing, known.names);
    const chips = standing.flatMap(({ who, many }) => [
      make("i", { className: "chip", style: colour(who) }),
      timesWords(many),
    ]);
    const here = atCell(address);
    const stop = make("button", {
      className: "bare break",
      title: "Stop playing when this cell is to be executed",
      "aria-label": `Breakpoint at ${number(address)}`,
      "aria-pressed": String(session.breaks.has(here)),
      onclick: () => session.breaks.toggle(here),
    });
    return make(
      "li",
      { className: address === this.focus ? "focus" : "", style: colour(view.owner[address]) },
      stop,
      make("button", look, number(address)),
      make("span", { className: "label", title: origin }, label),
      button,
      make("em", { title: names, "aria-label": names ? `Processes: ${names}` : null }, ...chips),
    );
  }

  /**
   * Lists the last changes of the cell that is looked at, and the next one.
   * @param {View} view
   */
  async #listChanges(view) {
    const { session, focus } = this;
    const { known, future } = session;
    const request = (this.#request = `${future} ${focus} ${view.turn}`);
    const history = await session.ofThisBattle(session.desk.cell(future, focus, view.turn));
    if (!history || request !== this.#request) return;
    const { changes, next } = history;
    const link = (/** @type {number} */ turn, /** @type {string} */ text) =>
      make("button", { className: "link", onclick: () => session.jump(turn) }, text);
    const lines = changes.map(({ turn, warrior, before }) => {
      const to = turn === session.turn ? turn - 1 : turn;
      const code = make("code", {}, cellText(readCell(before, 0), known.core));
      return make("li", {}, link(to, `Turn ${number(turn)}`), `: ${known.names[warrior]} (was `, code, ")");
    });
    const written = writtenWords(view.owner[focus], view.written[focus], known);
    if (!lines.length) lines.push(make("li", {}, `${written}; not changed since.`));
    if (next !== null) lines.push(make("li", {}, "Next change in ", link(next, `turn ${number(next)}`)));
    const source = make("li", {}, this.side.lineLink(focus));
    refill(element("past"), ...lines, source.childNodes.length ? source : null);
  }

  /**
   * Lets a cell be edited in its place.
   * @param {number} address
   * @param {string} text
   * @param {HTMLElement} button
   */
  #edit(address, text, button) {
    this.session.stop();
    this.#isEditing = true;
    const named = { "aria-label": `Cell ${address}`, spellcheck: false, autocapitalize: "off" };
    const input = make("input", { value: text, ...named });
    const done = () => {
      this.#isEditing = false;
      input.onblur = null;
      input.replaceWith(button);
      this.look();
    };
    input.onblur = done;
    input.onkeydown = async (event) => {
      if (event.key !== "Enter" && event.key !== "Escape") return;
      event.preventDefault();
      event.stopPropagation();
      if (event.key === "Escape") done();
      else if (await this.#applyEdit(address, input)) {
        done();
        button.focus();
      }
    };
    button.replaceWith(input);
    input.select();
  }

  /**
   * Sets a cell to the text of a field. Returns whether that was possible; if not, the page says why.
   * @param {number} address
   * @param {HTMLInputElement} input
   */
  async #applyEdit(address, input) {
    try {
      const cell = cellOf(this.session, input.value, address);
      await this.session.edit(cell.then((made) => ({ kind: "cell", address, last: address, cell: made })));
      return true;
    } catch (error) {
      input.setAttribute("aria-invalid", "true");
      refill(element("cell-words"), withCode(/** @type {Error} */ (error).message));
      return false;
    }
  }
}
